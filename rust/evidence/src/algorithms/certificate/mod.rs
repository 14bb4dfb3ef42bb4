//! Guess, certify, follow: levels are guessed, one backward pass certifies that they are the plan's, one forward pass
//! turns them into budgets.
//!
//! The reserve R(l) of a level l is the least charge from which the frames left can draw l until the store is full or
//! the end charge is met. Levels are the plan's if in every frame its level and the reserve behind it can be met, one
//! more could not, and the level rises only where the store is empty and falls only where it is full. So a guess needs
//! no proof. Two are made: one level for all frames, then the curve; where neither is certified, every frame's budget
//! is searched.

pub mod certify;
pub mod curve;
pub mod follow;
pub mod frame;
pub mod one_level;
pub mod search;

use curve::Knots;
use frame::{Frames, Plain};

/// By what plans were found.
#[derive(Clone, Copy, Debug, Default, PartialEq, Eq)]
pub struct Counters {
    pub one_level: u64,
    pub curve: u64,
    /// No guess was certified: every frame's budget was searched.
    pub search: u64,
}

/// The lists that a plan needs besides its budgets.
pub struct Scratch {
    after: Vec<u32>,
    pub knots: Knots,
}

impl Scratch {
    /// Lists for so many frames.
    pub fn new(frames: usize) -> Scratch {
        Scratch {
            after: vec![0; frames],
            knots: Knots::for_frames(frames),
        }
    }
}

/// Certifies the levels and turns them into budgets; false, with the levels as they were, if they are not the plan's.
fn by_levels(frames: &impl Frames, after: &mut [u32], levels: &mut [u32]) -> bool {
    let certified = certify::certify(frames, levels, after);
    if certified {
        follow::follow(frames, after, levels);
    }
    certified
}

/// The plan by one level for all frames, if there is one worth trying.
pub fn by_one_level(frames: &impl Frames, scratch: &mut Scratch, budgets: &mut [u32]) -> bool {
    match one_level::one_level(frames) {
        Some(level) => {
            budgets.fill(level);
            by_levels(frames, &mut scratch.after, budgets)
        }
        None => false,
    }
}

/// The plan by the curve, which keeps the highest levels in `after`.
pub fn by_curve(frames: &impl Frames, scratch: &mut Scratch, budgets: &mut [u32]) -> bool {
    let Scratch { after, knots } = scratch;
    curve::curve(frames, budgets, after, knots);
    by_levels(frames, after, budgets)
}

/// Writes the plan of frames in which something is feasible: by one level, by the curve, or by a search in every frame.
pub fn plan_frames(frames: &impl Frames, scratch: &mut Scratch, budgets: &mut [u32], counters: &mut Counters) {
    if by_one_level(frames, scratch, budgets) {
        counters.one_level += 1;
    } else if by_curve(frames, scratch, budgets) {
        counters.curve += 1;
    } else {
        search::search(frames, budgets);
        counters.search += 1;
    }
}

/// The plan of harvests from a charge; the end charge is within reach.
pub fn plan(capacity: u64, charge: u64, end: u64, harvest: &[u32]) -> Vec<u32> {
    let frames = Plain::new(capacity, charge, end, harvest);
    let mut budgets = vec![0; harvest.len()];
    let mut scratch = Scratch::new(harvest.len());
    plan_frames(&frames, &mut scratch, &mut budgets, &mut Counters::default());
    budgets
}
