//! Requests of half a week and of the same twice, so that what a call takes for a frame is the same in both.

use crate::measured::HALF_WEEK;
use crate::rest::daily_sun;
use crate::rows::MOST;
use crate::subject::Subject;
use energy::{Figures, Linked, MAX_BOUND, MAX_CAPACITY, MAX_HARVEST, NO_UPPER_END};
use evidence::families::Size;
use evidence::fast::Fast;
use evidence::lists::Lists;

/// What is called.
#[derive(Clone, Copy, PartialEq)]
pub enum Kind {
    /// Constant harvests, whose plan has one level.
    Constant,
    /// Sunny days with a middle store, whose plan needs the curve.
    Sun,
    /// The same with random bounds.
    Bounded,
    /// Sunny days with bounds, that are refused by this number, as late as can be: in the first frame, where every frame
    /// is looked at before one is looked for; with an end charge that all harvests together miss; by the last least.
    Refused(u32),
}

use Kind::{Bounded, Constant, Refused, Sun};

/// A list that is repeated up to so many frames.
fn repeated(list: &[u32], frames: usize) -> Vec<u32> {
    list.iter().copied().cycle().take(frames).collect()
}

/// Changes a request so that it is refused by a number.
fn refuse(number: u32, figures: &mut Figures, lists: &mut Lists) {
    match number {
        5 => figures.end = figures.capacity + 1,
        6 => lists.harvest[0] = MAX_HARVEST + 1,
        9 => {
            (figures.capacity, figures.end) = (MAX_CAPACITY, MAX_CAPACITY);
            figures.start = 0;
        }
        10 => (lists.least[0], lists.most[0]) = (1, 0),
        11 => {
            let last = lists.count() - 1;
            (lists.least[last], lists.most[last]) = (MAX_BOUND, NO_UPPER_END);
        }
        _ => unreachable!("{number} is asked of nobody"),
    }
}

impl Kind {
    /// Its name in tables.
    pub fn name(self) -> &'static str {
        match self {
            Constant => "one level",
            Sun => "curve",
            Bounded => "curve with bounds",
            Refused(_) => "refused",
        }
    }

    /// The number that its calls are answered by.
    pub fn number(self) -> u32 {
        match self {
            Refused(number) => number,
            _ => 0,
        }
    }

    /// Figures and lists of its request of so many frames, before it is changed so that it is refused.
    pub fn accepted(self, frames: usize) -> (Figures, Lists) {
        let (figures, [(_, free), (_, bounded)]) = daily_sun(Size::Middle, HALF_WEEK);
        let lists = match self {
            Constant => Lists::unbounded(vec![MOST / 2; HALF_WEEK]),
            Sun => free,
            Bounded | Refused(_) => bounded,
        };
        let lists = Lists {
            harvest: repeated(&lists.harvest, frames),
            least: repeated(&lists.least, frames),
            most: repeated(&lists.most, frames),
        };
        (figures, lists)
    }

    /// Its request of so many frames, with what calls of it need; that is made by the twin, so that the library is called
    /// only where it is counted.
    pub fn subject(self, frames: usize) -> Subject {
        let (figures, lists) = self.accepted(frames);
        let mut subject = Subject::called(&Fast, figures, lists, 0).by(&Linked);
        if let Refused(number) = self {
            refuse(number, &mut subject.figures, &mut subject.lists);
        }
        subject
    }
}
