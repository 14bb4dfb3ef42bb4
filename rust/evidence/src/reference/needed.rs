//! The needed capacity: by its definition over plans, and by what a plan without limit requires. A store's own capacity
//! plays no part.

use super::charge::{feasible, unlimited, Store};
use super::plan::{by_filling, by_reserve};
use energy::Frames;

/// The most frames for which the definition is fast enough.
const FEW_FRAMES: usize = 40;

/// The needed capacity: by its definition for few frames, and by requirements for more.
pub fn needed(store: Store, frames: Frames) -> u64 {
    if frames.harvest.len() <= FEW_FRAMES {
        by_definition(store, frames)
    } else {
        let open_plan = by_reserve(unlimited(store, frames.harvest), frames);
        by_requirement(store, frames.harvest, &open_plan)
    }
}

/// The budgets in order. Two lists serve equally at every level, and so earn equally by every table, exactly when these
/// are equal: what level n + 1 serves beyond level n is the number of budgets above n.
fn by_size(mut budgets: Vec<u32>) -> Vec<u32> {
    budgets.sort_unstable();
    budgets
}

/// The least capacity, at least start and end, whose plan serves as much at every level as the plan without limit.
/// More capacity never serves less, so it is found by bisection. With too little, nothing may be feasible.
pub fn by_definition(store: Store, frames: Frames) -> u64 {
    let served = |capacity| {
        let store = Store { capacity, ..store };
        feasible(store, frames, frames.least).then(|| by_size(by_filling(store, frames)))
    };
    let (mut low, mut high) = (store.start.max(store.end), unlimited(store, frames.harvest).capacity);
    let wanted = served(high);
    while low < high {
        let middle = low + (high - low) / 2;
        if served(middle) == wanted {
            high = middle;
        } else {
            low = middle + 1;
        }
    }
    low
}

/// The greatest charge that a plan without limit requires anywhere, the start and end charges counted too. Required before
/// a frame is what its budget and the frames behind it require beyond its harvest, and after the last the end charge.
pub fn by_requirement(store: Store, harvest: &[u32], open_plan: &[u32]) -> u64 {
    let (mut required, mut greatest) = (store.end, store.start.max(store.end));
    for (&h, &budget) in harvest.iter().zip(open_plan).rev() {
        required = (u64::from(budget) + required).saturating_sub(h.into());
        greatest = greatest.max(required);
    }
    greatest
}
