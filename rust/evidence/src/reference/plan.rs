//! The plan by two simple methods: filling level by level, and the greatest budget that leaves enough to go on.
//!
//! Both take a start charge that does not exceed the capacity, and leasts that are feasible.
//! Neither is believed: the tests compare both with a search through all assignments.

use super::charge::{at_hand, feasible, frame, frames_from, most_energy, walk, whole, Store};
use energy::Frames;

/// What a frame takes at a level: the level, brought within its bounds. No upper end is above every level.
fn taken(frames: Frames, i: usize, level: u64) -> u64 {
    level.min(frames.most[i].into()).max(frames.least[i].into())
}

/// The plan by filling: from the leasts on, the frames with the smallest budget get one unit more in turn, the earliest
/// first, each until its most or until it cannot take one.
///
/// A frame that cannot take a unit never can again, so it is closed. Between two frames that close, all open ones
/// rise together, and the level that they reach is found by bisection.
pub fn by_filling(store: Store, frames: Frames) -> Vec<u32> {
    let mut budgets = frames.least.to_vec();
    let mut open = vec![true; budgets.len()];
    let top = most_energy(store, frames.harvest);
    let mut level = highest_level(store, frames, &mut budgets, &open, 0, top);
    while level < top {
        level += 1;
        one_more_each(store, frames, &mut budgets, &mut open, level);
        level = highest_level(store, frames, &mut budgets, &open, level, top);
    }
    budgets
}

/// Puts every open frame at the highest level up to the top that is feasible, and gives it; the level given is feasible.
fn highest_level(store: Store, frames: Frames, budgets: &mut [u32], open: &[bool], level: u64, top: u64) -> u64 {
    let mut good = level;
    let mut bad = top + 1;
    while bad - good > 1 {
        let middle = good + (bad - good) / 2;
        set_open(frames, budgets, open, middle);
        if feasible(store, frames, budgets) {
            good = middle;
        } else {
            bad = middle;
        }
    }
    set_open(frames, budgets, open, good);
    good
}

/// Gives every open frame what it takes at the level.
fn set_open(frames: Frames, budgets: &mut [u32], open: &[bool], level: u64) {
    for (i, budget) in budgets.iter_mut().enumerate().filter(|&(i, _)| open[i]) {
        *budget = taken(frames, i, level) as u32;
    }
}

/// Gives each open frame in turn the unit that leads to the level, or closes it; one that is above the level or at its
/// most gets none.
fn one_more_each(store: Store, frames: Frames, budgets: &mut [u32], open: &mut [bool], level: u64) {
    let mut left = store;
    for i in 0..budgets.len() {
        if open[i] && u64::from(budgets[i]) < taken(frames, i, level) {
            open[i] = can_take_one(left, &frames.harvest[i..], &budgets[i..]);
            budgets[i] += u32::from(open[i]);
        }
        left = after(left, frames.harvest[i], budgets[i]);
    }
}

/// Whether the first frame of feasible budgets can take a unit more: every charge from there on falls by one, until the
/// unit is one that would have been lost.
fn can_take_one(store: Store, harvest: &[u32], budgets: &[u32]) -> bool {
    let mut last = whole(store.start);
    for after in walk(store, harvest, budgets) {
        if after.lost > 0 || after.charge == 0 {
            return after.lost > 0;
        }
        last = after.charge;
    }
    last > whole(store.end)
}

/// The store after a frame whose budget is at hand.
fn after(store: Store, harvest: u32, budget: u32) -> Store {
    let charge = frame(store.capacity, whole(store.start), harvest, budget).charge;
    Store {
        start: u64::try_from(charge).expect("no more is drawn than there is"),
        ..store
    }
}

/// The least charge from which every frame can take the level until the store is full or the end charge is met.
fn reserve(store: Store, level: u64, frames: Frames) -> u64 {
    let places = (0..frames.harvest.len()).rev();
    places.fold(store.end, |need, i| {
        let wanted = taken(frames, i, level) + need;
        store.capacity.min(wanted.saturating_sub(frames.harvest[i].into()))
    })
}

/// The plan by reserves: in each frame the greatest budget within its bounds that leaves the reserve of one level below
/// it, or its least.
pub fn by_reserve(store: Store, frames: Frames) -> Vec<u32> {
    let mut left = store;
    let mut budgets = Vec::with_capacity(frames.harvest.len());
    for (i, &h) in frames.harvest.iter().enumerate() {
        let have = at_hand(left.start, h);
        let (mut good, mut bad) = (u64::from(frames.least[i]), have.min(frames.most[i].into()) + 1);
        while bad - good > 1 {
            let middle = good + (bad - good) / 2;
            if middle + reserve(left, middle - 1, frames_from(frames, i + 1)) <= have {
                good = middle;
            } else {
                bad = middle;
            }
        }
        budgets.push(good as u32);
        left = after(left, h, good as u32);
    }
    budgets
}
