//! The certificate: one backward pass over levels, with the exact reserves of each level and of one more in hand.
//!
//! Levels that pass are the plan's: the plan's budget in a frame is what the frame draws at its level or at one more.

use super::frame::{Frame, Frames, TOP};

/// What is known of the frames behind a frame: the level of the first of them, its reserve, the reserve of one level
/// more, and the charge from which the first of them is full. No reserve is above that charge.
#[derive(Clone, Copy)]
struct Weight {
    level: u64,
    low: u64,
    high: u64,
    gap: u64,
}

/// What a frame needs at its level and at one more.
#[derive(Clone, Copy)]
struct Needs {
    at: u64,
    more: u64,
}

/// The reserves behind a frame, of its own level and of one more; none where the levels may not turn there.
#[inline(always)]
fn turn(level: u64, behind: Weight) -> Option<(u64, u64)> {
    if level == behind.level {
        return Some((behind.low, behind.high));
    }
    if level < behind.level {
        // The level rises behind the frame: the store is empty there.
        return if behind.low == 0 { Some((0, 0)) } else { None };
    }
    // It falls: the store is full there.
    if behind.gap <= behind.high {
        Some((behind.high, behind.high))
    } else {
        None
    }
}

/// What a frame needs with these reserves behind it.
#[inline(always)]
fn needs(frame: &Frame, level: u64, (low, high): (u64, u64)) -> Needs {
    Needs {
        at: frame.drain + frame.draw(level) + low,
        more: frame.drain + frame.draw(level + 1) + high,
    }
}

/// Whether a frame can meet its level from some charge, and needs one more unit than it can be made to have.
#[inline(always)]
fn steady(frame: &Frame, level: u64, needs: Needs) -> bool {
    needs.at <= frame.ceiling && (TOP <= level || frame.room(0) <= needs.more)
}

/// The weight before a frame.
#[inline(always)]
fn weight(frame: &Frame, level: u64, needs: Needs) -> Weight {
    let gap = frame.gap();
    Weight {
        level,
        low: gap.min(needs.at.saturating_sub(frame.inflow)),
        high: gap.min(needs.more.saturating_sub(frame.inflow)),
        gap,
    }
}

/// Whether the levels are the plan's. Writes the reserve behind each frame at its level.
pub fn certify(frames: &impl Frames, levels: &[u32], after: &mut [u32]) -> bool {
    let end = frames.end();
    let mut behind = Weight {
        level: 0,
        low: end,
        high: end,
        gap: end,
    };
    let mut first = Needs { at: 0, more: u64::MAX };
    for k in (0..frames.count()).rev() {
        let frame = frames.at(k);
        let level = u64::from(levels[k]);
        let reserves = match turn(level, behind) {
            Some(reserves) => reserves,
            None => return false,
        };
        first = needs(&frame, level, reserves);
        if !steady(&frame, level, first) {
            return false;
        }
        after[k] = reserves.0 as u32;
        behind = weight(&frame, level, first);
    }
    frames.count() == 0 || starts(&frames.at(0), frames.start(), levels[0], first)
}

/// Whether the first frame's level suits the start charge.
fn starts(frame: &Frame, start: u64, level: u32, needs: Needs) -> bool {
    let room = frame.room(start);
    needs.at <= room && (TOP <= u64::from(level) || room <= needs.more)
}
