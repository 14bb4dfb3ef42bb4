//! What the calls are given and what they answer: figures, verdicts, the shift's record.

use crate::refusal::Refusal;
use std::error::Error;
use std::fmt;

/// Capacity, start charge and end charge of a request, in watt-hours; its [frames](crate::Frames) are beside it.
///
/// In memory it is the header's `struct EnergyFigures`.
#[derive(Clone, Copy, Debug, Default, PartialEq, Eq, Hash)]
#[repr(C)]
pub struct Figures {
    /// The most that the battery holds.
    pub capacity: u32,
    /// The charge before the first frame.
    pub start: u32,
    /// The charge that must be left after the last one.
    pub end: u32,
}

/// The tracer's verdict on a supplied list of budgets.
#[derive(Clone, Copy, Debug, PartialEq, Eq, Hash)]
pub enum Verdict {
    /// No charge is below zero, and the last one is at least the end charge.
    Feasible,
    /// The last charge is below the end charge, and no charge before it is below zero.
    EndTooLow,
    /// A charge before the last one is below zero.
    BelowZero {
        /// The earliest such frame, from 1.
        frame: u32,
    },
}

/// What [`trace`](crate::trace) says of a list of budgets.
#[derive(Clone, Debug, PartialEq, Eq, Hash)]
pub struct Trace {
    /// Whether the charges allow the budgets.
    pub verdict: Verdict,
    /// The charge after each frame, below zero included.
    pub charges: Vec<i64>,
    /// What each frame loses to the full battery.
    pub losses: Vec<u32>,
}

/// Whether the rest of a shift has a plan.
#[derive(Clone, Copy, Debug, PartialEq, Eq, Hash)]
pub enum Rest {
    /// It has one.
    Planned,
    /// Nothing is feasible, and the budgets of the rest are 0.
    Short {
        /// What the end charge misses with these budgets: end less present charge less remaining harvest, 0 where that is
        /// below 0.
        missing: u64,
    },
}

/// What [`plan_rest`](crate::plan_rest) answers.
#[derive(Clone, Debug, PartialEq, Eq, Hash)]
pub struct RestPlan {
    /// Whether there is a plan.
    pub rest: Rest,
    /// The budgets of the frames not yet recorded, from the next one to the last; all 0 where the rest is short.
    pub budgets: Vec<u32>,
}

/// What a shift was started with.
#[derive(Clone, Copy, Debug, Default, PartialEq, Eq, Hash)]
pub struct Terms {
    /// The number of frames.
    pub frames: u32,
    /// The most that the battery holds.
    pub capacity: u32,
    /// The charge before the first frame.
    pub start: u32,
    /// The charge that was asked for after the last one.
    pub end: u32,
}

/// Sums over the recorded frames, in watt-hours.
#[derive(Clone, Copy, Debug, Default, PartialEq, Eq, Hash)]
pub struct Totals {
    /// What the sun gave.
    pub harvested: u64,
    /// What was used.
    pub used: u64,
    /// What the full battery could not take.
    pub lost: u64,
}

/// How a shift stands.
#[derive(Clone, Copy, Debug, Default, PartialEq, Eq, Hash)]
pub struct Present {
    /// The number of frames recorded.
    pub recorded: u32,
    /// The charge after them.
    pub charge: u32,
    /// The sums over them.
    pub totals: Totals,
}

/// A shift's record: a value, of which each recording gives the next one.
#[derive(Clone, Copy, Debug, Default, PartialEq, Eq, Hash)]
pub struct Shift {
    /// What it was started with, which stays.
    pub terms: Terms,
    /// How it stands.
    pub now: Present,
}

/// What a word file holds besides its frames.
#[derive(Clone, Copy, Debug, Default, PartialEq, Eq, Hash)]
pub struct Header {
    /// The figures of its request.
    pub figures: Figures,
    /// The number of its frames.
    pub frames: usize,
}

/// A recording that was refused.
///
/// Printed, it is its refusal, number, P and sentence; so it has no [source](Error::source), which would say the same again.
#[derive(Clone, Copy, Debug, PartialEq, Eq, Hash)]
pub struct NotRecorded {
    /// Why.
    pub refusal: Refusal,
    /// The shift as it was given.
    pub shift: Shift,
}

impl fmt::Display for NotRecorded {
    fn fmt(&self, f: &mut fmt::Formatter<'_>) -> fmt::Result {
        self.refusal.fmt(f)
    }
}

impl Error for NotRecorded {}

impl From<NotRecorded> for Refusal {
    fn from(not: NotRecorded) -> Refusal {
        not.refusal
    }
}
