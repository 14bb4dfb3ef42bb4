//! The charge rule, which tracer, search, shift and logbook call, and which assignments are feasible: Definition 1 within
//! the least and the most of every frame.

use super::limits::NO_UPPER_END;
use energy::{Figures, Frames};

/// What a plan goes by besides its frames: a capacity, also one that no request has, the charge before the first of
/// its frames, and the end charge.
#[derive(Clone, Copy, Debug, PartialEq, Eq)]
pub struct Store {
    pub capacity: u64,
    pub start: u64,
    pub end: u64,
}

impl From<Figures> for Store {
    fn from(figures: Figures) -> Store {
        Store {
            capacity: figures.capacity.into(),
            start: figures.start.into(),
            end: figures.end.into(),
        }
    }
}

/// What a frame ends with: the charge, below zero where more was drawn than there was, and what was lost.
#[derive(Clone, Copy, Debug, PartialEq, Eq)]
pub struct FrameEnd {
    pub charge: i64,
    pub lost: u64,
}

/// After a frame the charge is the smaller of the capacity and (charge before + harvest − budget); what exceeds the
/// capacity is lost.
pub fn frame(capacity: u64, charge: i64, harvest: u32, budget: u32) -> FrameEnd {
    let left = charge + i64::from(harvest) - i64::from(budget);
    let charge = left.min(whole(capacity));
    FrameEnd {
        charge,
        lost: left.abs_diff(charge),
    }
}

/// What a frame has at hand: the charge before it and its harvest.
pub fn at_hand(charge: u64, harvest: u32) -> u64 {
    charge + u64::from(harvest)
}

/// A capacity or charge among the numbers that may be below zero.
pub fn whole(energy: u64) -> i64 {
    i64::try_from(energy).expect("less than 2^63 Wh")
}

/// What each frame ends with.
pub fn walk<'a>(store: Store, harvest: &'a [u32], budgets: &'a [u32]) -> impl Iterator<Item = FrameEnd> + 'a {
    let frames = harvest.iter().zip(budgets);
    frames.scan(whole(store.start), move |charge, (&h, &b)| {
        let end = frame(store.capacity, *charge, h, b);
        *charge = end.charge;
        Some(end)
    })
}

/// Definition 1: the charge is at least 0 after every frame but the last, and at least the end charge after that.
fn drawable(store: Store, harvest: &[u32], budgets: &[u32]) -> bool {
    let mut charge = whole(store.start);
    for after in walk(store, harvest, budgets) {
        charge = after.charge;
        if charge < 0 {
            return false;
        }
    }
    charge >= whole(store.end)
}

/// Whether a frame's budget is at least its least and, where it has an upper end, at most its most.
pub fn within(least: u32, most: u32, budget: u32) -> bool {
    least <= budget && (most == NO_UPPER_END || budget <= most)
}

/// Definition 1 with every budget within the bounds of its frame.
pub fn feasible(store: Store, frames: Frames, budgets: &[u32]) -> bool {
    let bounds = frames.least.iter().zip(frames.most);
    let mut bounded = bounds.zip(budgets);
    bounded.all(|((&least, &most), &budget)| within(least, most, budget)) && drawable(store, frames.harvest, budgets)
}

/// The frames from a place on.
pub fn frames_from(frames: Frames, first: usize) -> Frames {
    Frames {
        harvest: &frames.harvest[first..],
        least: &frames.least[first..],
        most: &frames.most[first..],
    }
}

/// All that can ever be drawn: the start charge and all harvest.
pub fn most_energy(store: Store, harvest: &[u32]) -> u64 {
    store.start + harvest.iter().map(|&h| u64::from(h)).sum::<u64>()
}

/// The store with a capacity that no charge reaches.
pub fn unlimited(store: Store, harvest: &[u32]) -> Store {
    Store {
        capacity: most_energy(store, harvest) + store.end,
        ..store
    }
}
