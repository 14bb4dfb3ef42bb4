//! The fallback: every frame's budget by bisection, each trial one scan from the left. Plain and slow, and never needed
//! so far.

use super::frame::Frames;

/// Whether a level can be drawn from a charge before frame `from` until the store is full or the end charge is met.
fn goes(frames: &impl Frames, from: usize, charge: u64, level: u64) -> bool {
    let mut charge = charge;
    for k in from..frames.count() {
        let frame = frames.at(k);
        let have = charge + frame.inflow;
        let need = frame.drain + frame.draw(level);
        if frame.ceiling <= have {
            return true;
        }
        if have < need {
            return false;
        }
        charge = have - need;
    }
    frames.end() <= charge
}

/// The greatest budget that leaves the reserve of one level below it, of what a frame before `next` has; its least if
/// none does.
fn greatest(frames: &impl Frames, next: usize, have: u64, least: u64, most: u64) -> u64 {
    let mut good = least;
    let mut top = most.min(have).max(least);
    while good < top {
        let trial = good + (top - good + 1) / 2;
        if goes(frames, next, have - trial, trial - 1) {
            good = trial;
        } else {
            top = trial - 1;
        }
    }
    good
}

/// Writes the plan's budgets.
pub fn search(frames: &impl Frames, budgets: &mut [u32]) {
    let mut charge = frames.start();
    for k in 0..frames.count() {
        let frame = frames.at(k);
        let have = frame.room(charge) - frame.drain;
        let budget = greatest(frames, k + 1, have, frame.least, frame.most);
        budgets[k] = budget as u32;
        charge = have - budget;
    }
}
