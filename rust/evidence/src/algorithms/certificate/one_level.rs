//! The first guess: one level for all frames, at which they draw all that there is to draw. Many requests have no other
//! level. Where the store runs dry or overflows at it in the first frames, as before a sunrise, it is not worth a
//! certificate.

use super::frame::{Frames, TOP};

/// How many frames are the first ones.
const FIRST: usize = 64;

/// How often the level is looked for.
const ROUNDS: u64 = 6;

/// What there is to draw until the end.
fn to_draw(frames: &impl Frames) -> u64 {
    let drains: u64 = (0..frames.count()).map(|i| frames.at(i).drain).sum();
    frames.energy().saturating_sub(frames.end() + drains)
}

/// What all frames draw at a level, and how many of them would draw more at one level more.
struct Drawn {
    sum: u64,
    free: u64,
}

fn drawn_at(frames: &impl Frames, level: u64) -> Drawn {
    let mut drawn = Drawn { sum: 0, free: 0 };
    for i in 0..frames.count() {
        let f = frames.at(i);
        drawn.sum += f.draw(level);
        drawn.free += u64::from(f.least <= level && level < f.most);
    }
    drawn
}

/// What each of n has of a; all of it where there is none.
fn over(a: u64, n: u64) -> u64 {
    a.checked_div(n).unwrap_or(a)
}

/// The level at which all would be drawn, if the same frames were free there. Where none is and something is left, no
/// least binds from the level of all there is on: if none is free there either, every most binds, and the top is it.
fn nearer(level: u64, drawn: Drawn, all: u64) -> u64 {
    if drawn.free == 0 && drawn.sum < all {
        return if level < all { all } else { TOP };
    }
    if drawn.sum <= all {
        return level + over(all - drawn.sum, drawn.free);
    }
    level.saturating_sub(over(drawn.sum - all - 1, drawn.free) + 1)
}

/// The level at which all is drawn, or whatever is reached where that is not found in some rounds.
fn shared_level(frames: &impl Frames) -> u64 {
    let all = to_draw(frames);
    let mut level = over(all, frames.count() as u64);
    for _ in 0..ROUNDS {
        let next = nearer(level, drawn_at(frames, level), all);
        if next == level {
            break;
        }
        level = next;
    }
    level
}

/// Whether the first frames can draw a level: the store neither runs dry nor overflows.
fn lasts_at_first(frames: &impl Frames, level: u64) -> bool {
    let mut charge = frames.start();
    for i in 0..FIRST.min(frames.count()) {
        let f = frames.at(i);
        let have = charge + f.inflow;
        let need = f.drain + f.draw(level);
        if f.ceiling < have || have < need {
            return false;
        }
        charge = have - need;
    }
    true
}

/// The level at which all is drawn, if the first frames can draw it.
pub fn one_level(frames: &impl Frames) -> Option<u32> {
    let level = shared_level(frames);
    lasts_at_first(frames, level).then_some(level as u32)
}
