//! What a request says of its frames: which they are, the harvest of each, and the bounds of its budget.

use super::Calendar;
use energy::{Frames, NO_UPPER_END};

/// A bound that the budget of a frame may have.
#[derive(Clone, Copy, Debug, PartialEq, Eq)]
pub enum Bound {
    Least,
    Most,
}

/// What stands in a text for a bound that a frame does not have.
pub const NO_BOUND: &str = "-";

impl Bound {
    pub const ALL: [Bound; 2] = [Bound::Least, Bound::Most];

    pub const fn name(self) -> &'static str {
        match self {
            Bound::Least => "least",
            Bound::Most => "most",
        }
    }

    /// On which side of it a budget leaves it.
    pub const fn beyond(self) -> &'static str {
        match self {
            Bound::Least => "below",
            Bound::Most => "above",
        }
    }

    /// What stands in a list for a bound that a frame does not have.
    pub const fn absent(self) -> u32 {
        match self {
            Bound::Least => 0,
            Bound::Most => NO_UPPER_END,
        }
    }

    /// The bound in a list, if the frame has it.
    pub fn given(self, listed: u32) -> Option<u32> {
        (listed != self.absent()).then_some(listed)
    }

    /// The same as text.
    pub fn text(self, listed: u32) -> String {
        self.given(listed)
            .map_or(NO_BOUND.into(), |watt_hours| watt_hours.to_string())
    }

    /// Whether a budget leaves a frame's bound; none is above `NO_UPPER_END`.
    pub fn is_left_by(self, budget: u32, listed: u32) -> bool {
        match self {
            Bound::Least => budget < listed,
            Bound::Most => budget > listed,
        }
    }
}

/// Which frames there are, and one entry of each list for each of them.
#[derive(Clone, Debug, PartialEq, Eq)]
pub struct FrameLists {
    pub calendar: Calendar,
    pub harvest: Vec<u32>,
    pub least: Vec<u32>,
    pub most: Vec<u32>,
}

impl FrameLists {
    /// The lists as the library is lent them.
    pub fn lent(&self) -> Frames<'_> {
        Frames {
            harvest: &self.harvest,
            least: &self.least,
            most: &self.most,
        }
    }

    /// The frames as they are planned, with their leasts or without them.
    pub fn planned(&self, without_leasts: bool) -> FrameLists {
        let mut planned = self.clone();
        if without_leasts {
            planned.least.fill(Bound::Least.absent());
        }
        planned
    }

    /// What is left without the first frames.
    pub fn rest(&self, from: usize) -> FrameLists {
        FrameLists {
            calendar: self.calendar.rest(from),
            harvest: self.harvest[from..].to_vec(),
            least: self.least[from..].to_vec(),
            most: self.most[from..].to_vec(),
        }
    }

    /// The list of a bound.
    pub fn list(&self, bound: Bound) -> &[u32] {
        match bound {
            Bound::Least => &self.least,
            Bound::Most => &self.most,
        }
    }

    /// The bounds that some frame has.
    pub fn bounds(&self) -> Vec<Bound> {
        let is_given = |bound: &Bound| self.list(*bound).iter().any(|&listed| bound.given(listed).is_some());
        Bound::ALL.into_iter().filter(is_given).collect()
    }

    /// Whether some frame has a bound.
    pub fn is_bounded(&self) -> bool {
        !self.bounds().is_empty()
    }
}

#[cfg(test)]
mod tests {
    use super::*;

    #[test]
    fn a_bound_is_given_unless_it_says_nothing() {
        assert_eq!((Bound::Least.given(0), Bound::Most.given(NO_UPPER_END)), (None, None));
        assert_eq!(
            (Bound::Least.given(NO_UPPER_END), Bound::Most.given(0)),
            (Some(NO_UPPER_END), Some(0))
        );
        assert_eq!((Bound::Least.text(0), Bound::Most.text(0)), ("-".into(), "0".into()));
    }

    #[test]
    fn a_budget_leaves_a_bound_beyond_it_alone() {
        let left = |bound: Bound, listed| [2, 3, 4].map(|budget| bound.is_left_by(budget, listed));
        assert_eq!(left(Bound::Least, 3), [true, false, false]);
        assert_eq!(left(Bound::Most, 3), [false, false, true]);
        assert!(!Bound::Most.is_left_by(u32::MAX, NO_UPPER_END) && !Bound::Least.is_left_by(0, 0));
    }

    #[test]
    fn each_bound_is_there_by_itself() {
        let lists = |least: &[u32], most: &[u32]| FrameLists {
            calendar: Calendar::default(),
            harvest: vec![6, 4],
            least: least.to_vec(),
            most: most.to_vec(),
        };
        let none = NO_UPPER_END;
        assert!(!lists(&[0, 0], &[none, none]).is_bounded());
        assert_eq!(lists(&[0, 3], &[none, none]).bounds(), [Bound::Least]);
        assert_eq!(lists(&[0, 0], &[0, none]).bounds(), [Bound::Most]);
        assert_eq!(lists(&[0, 3], &[0, none]).bounds(), Bound::ALL);
        assert_eq!(
            lists(&[0, 3], &[0, none]).rest(1),
            FrameLists {
                calendar: Calendar { before: 1, times: None },
                harvest: vec![4],
                least: vec![3],
                most: vec![none],
            }
        );
    }
}
