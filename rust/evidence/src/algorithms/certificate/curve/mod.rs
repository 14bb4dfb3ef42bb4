//! The guess for any frames: the reserve as a curve over the levels.
//!
//! The reserve of a level is 0 at low levels and the full store at high ones, and between it grows from one level to
//! the next by as much as the frames behind draw more. One pass from behind keeps that curve by its knots, the levels
//! at which its growth changes: a frame adds what it draws, which begins to grow at its least and stops at its most;
//! what it has is taken off; and what is then below 0 or above the full store is cut off. A frame's level depends on
//! the level before it and on two levels of the curve alone: where the reserve is 0 up to a higher level, it rises to
//! that one, and where it is full from a lower one on, it falls to just below that. So a pass from the front finds all
//! levels.
//!
//! Most knots are written and met near an end of the curve. Where many lie between, a new one has up to half of them
//! moved.

mod ends;
mod knots;
mod pass;

pub use knots::Knots;

use super::frame::{Frames, TOP};
use ends::Curve;
use pass::Passed;

/// Frame k as the curve passes it.
#[inline(always)]
fn passed(frames: &impl Frames, k: usize) -> Passed {
    let f = frames.at(k);
    Passed {
        has: f.ceiling.min(f.inflow),
        ceiling: f.ceiling,
        drain: f.drain,
        least: f.least,
        most: frames.upper_end(k),
    }
}

/// Draws the curve from behind, and writes for each frame the last level at which the reserve before it is 0, and the
/// last at which it is not full.
fn draw_curve(frames: &impl Frames, roof: u64, lows: &mut [u32], highs: &mut [u32], knots: &mut Knots) {
    let count = frames.count();
    let full = passed(frames, count - 1).gap();
    let mut curve = Curve::at_end(frames.end(), full, roof, knots);
    for k in (0..count).rev() {
        curve.pass(passed(frames, k));
        lows[k] = curve.last_empty() as u32;
        if curve.full == 0 {
            // The frame takes nothing over: one level is left, at which it draws all that it has.
            highs[k] = lows[k];
            curve.vanish();
        } else {
            highs[k] = curve.high.level as u32;
        }
    }
    if 0 < curve.full {
        if !curve.is_empty() {
            curve.spend(frames.start());
        }
        lows[0] = curve.last_empty() as u32;
        highs[0] = lows[0];
    }
}

/// Writes the levels over the lowest ones: each is the level before it, or the nearest between its two. A level at the
/// roof is the top: whoever draws the most there refuses nothing more.
fn choose(roof: u64, lows: &mut [u32], highs: &[u32]) {
    let mut level = 0;
    for (low, &high) in lows.iter_mut().zip(highs) {
        level = level.min(high).max(*low);
        *low = if roof <= u64::from(level) { TOP as u32 } else { level };
    }
}

/// Writes the levels at which the curve leaves 0 or becomes full where the levels turn; `highs` and `knots` are
/// scratch.
pub fn curve(frames: &impl Frames, levels: &mut [u32], highs: &mut [u32], knots: &mut Knots) {
    if frames.count() == 0 {
        return;
    }
    let roof = frames.energy() + 1;
    draw_curve(frames, roof, levels, highs, knots);
    choose(roof, levels, highs);
}
