//! Following certified levels: one forward pass that turns each level into the plan's budget.

use super::frame::{Frame, Frames};

/// The budget of a frame that has so much: its level, or one more where that leaves the reserve of the level.
#[inline(always)]
fn spend(frame: &Frame, have: u64, level: u64, reserve: u64) -> u64 {
    if level < frame.least {
        return frame.least;
    }
    if frame.most <= level {
        return frame.most;
    }
    if level + reserve < have {
        level + 1
    } else {
        level
    }
}

/// Overwrites certified levels with the plan's budgets. `after` has the reserves that the certificate wrote.
pub fn follow(frames: &impl Frames, after: &[u32], levels: &mut [u32]) {
    let mut charge = frames.start();
    for k in 0..frames.count() {
        let frame = frames.at(k);
        let have = frame.room(charge) - frame.drain;
        let budget = spend(&frame, have, u64::from(levels[k]), u64::from(after[k]));
        levels[k] = budget as u32;
        charge = have - budget;
    }
}
