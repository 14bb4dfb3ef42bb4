//! Which case of a refusal holds for a request, and where.

use super::leasts::Store;
use super::{Bound, Calendar, Request};
use crate::failure::Failure;
use crate::report::counted;
use energy::{Figures, Refusal, MAX_BOUND, MAX_CAPACITY, MAX_FRAMES, MAX_HARVEST};

impl Request {
    /// The failure of a call that was lent this request: its sentence says which figures are at fault, and where.
    pub fn refused(&self, refusal: Refusal) -> Failure {
        self.refused_by(refusal, Store::OfRequest)
    }

    /// The same of a call for which the storage is unlimited.
    pub fn refused_without_limit(&self, refusal: Refusal) -> Failure {
        self.refused_by(refusal, Store::Unlimited)
    }

    fn refused_by(&self, refusal: Refusal, store: Store) -> Failure {
        let Figures { capacity, start, end } = self.figures;
        let sentence = match refusal {
            Refusal::TooManyFrames => Some(too_many(self.frames.harvest.len(), "frame")),
            Refusal::CapacityAboveLimit => self.above_limit(),
            Refusal::StartAboveCapacity => Some(above_capacity("start", start, capacity)),
            Refusal::EndAboveCapacity => Some(above_capacity("end", end, capacity)),
            Refusal::HarvestAboveLimit { frame } => Some(self.harvest_above_limit(frame)),
            Refusal::BadBounds { frame } => Some(self.bad_bounds(frame)),
            Refusal::LeastsOutOfReach => self.leasts_out_of_reach(store),
            _ => None,
        };
        let sentence = sentence.unwrap_or_else(|| refusal.sentence());
        Failure::Refused { refusal, sentence }
    }

    /// The failure of a call that was lent so many budgets too.
    pub fn refused_budgets(&self, refusal: Refusal, budgets: usize) -> Failure {
        let frames = self.frames.harvest.len();
        match refusal {
            Refusal::WrongLength => {
                let (budgets, frames) = (counted(budgets, "budget"), counted(frames, "frame"));
                let sentence = format!("a budget for each frame is expected, found {budgets} for {frames}");
                Failure::Refused { refusal, sentence }
            }
            other => self.refused(other),
        }
    }

    /// Which figure is above the largest capacity.
    fn above_limit(&self) -> Option<String> {
        let Figures { capacity, start, end } = self.figures;
        let figures = [("capacity", capacity), ("start charge", start), ("end charge", end)];
        let (name, figure) = figures.into_iter().find(|(_, figure)| *figure > MAX_CAPACITY)?;
        Some(format!(
            "the {name} is {figure} Wh, above the limit of {MAX_CAPACITY} Wh"
        ))
    }

    /// Which harvest is above the largest one.
    fn harvest_above_limit(&self, frame: u64) -> String {
        let frame = frame as usize - 1;
        harvest_above_limit(self.frames.calendar, frame, self.frames.harvest[frame])
    }

    /// What is wrong with the bounds of a frame.
    fn bad_bounds(&self, frame: u64) -> String {
        let frame = frame as usize - 1;
        let [least, most] = Bound::ALL.map(|bound| self.frames.list(bound)[frame]);
        let name = self.frames.calendar.name_within(frame);
        let above = |bound: Bound, value: u32, what: String| {
            format!("the {} of {name} is {value} Wh, above {what} Wh", bound.name())
        };
        let limit = || format!("the limit of {MAX_BOUND}");
        if least > MAX_BOUND {
            above(Bound::Least, least, limit())
        } else if least > most {
            above(Bound::Least, least, format!("its most of {most}"))
        } else {
            above(Bound::Most, most, limit())
        }
    }
}

fn above_capacity(name: &str, charge: u32, capacity: u32) -> String {
    format!("the {name} charge is {charge} Wh, above the capacity of {capacity} Wh")
}

/// That a frame's harvest is above the largest one.
pub fn harvest_above_limit(calendar: Calendar, frame: usize, harvest: u32) -> String {
    let name = calendar.name_within(frame);
    format!("the harvest of {name} is {harvest} Wh, above the limit of {MAX_HARVEST} Wh")
}

/// That there are more frames, or entries of a list, than may be.
pub fn too_many(number: usize, noun: &str) -> String {
    format!("there are {}, above the limit of {MAX_FRAMES}", counted(number, noun))
}
