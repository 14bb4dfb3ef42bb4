//! Refusals because of the input, each with its P, in the order of documents 01 and 02.

use super::charge::{at_hand, feasible, unlimited, Store};
use super::limits::{MAX_BOUND, MAX_CAPACITY, MAX_FRAMES, MAX_HARVEST, NO_UPPER_END};
use super::wordfile::file_bytes;
use energy::{Figures, Frames, Refusal};

/// A refusal, or nothing to refuse.
pub type Checked = Result<(), Refusal>;

/// The refusal, if the test holds.
pub fn refuse_if(test: bool, refusal: Refusal) -> Checked {
    if test {
        Err(refusal)
    } else {
        Ok(())
    }
}

/// 1 and 2: the number of frames.
pub fn frames(count: usize) -> Checked {
    refuse_if(count == 0, Refusal::NoFrames)?;
    refuse_if(count > MAX_FRAMES, Refusal::TooManyFrames)
}

/// 7: a lent list whose length is not K.
pub fn same_length(length: usize, frames: usize) -> Checked {
    refuse_if(length != frames, Refusal::WrongLength)
}

/// 3, 4, 5 and 6: the figures of a request.
pub fn figures(figures: Figures, harvest: &[u32]) -> Checked {
    refuse_if(figures.capacity > MAX_CAPACITY, Refusal::CapacityAboveLimit)?;
    refuse_if(figures.start > figures.capacity, Refusal::StartAboveCapacity)?;
    refuse_if(figures.end > figures.capacity, Refusal::EndAboveCapacity)?;
    harvests(1, harvest)
}

/// 6: the earliest harvest above its limit; the first of the list belongs to the given frame.
pub fn harvests(first: u64, harvest: &[u32]) -> Checked {
    match harvest.iter().position(|&h| h > MAX_HARVEST) {
        Some(place) => Err(Refusal::HarvestAboveLimit {
            frame: first + place as u64,
        }),
        None => Ok(()),
    }
}

/// Whether a least is above its most, or a least or a most with an upper end is above its limit.
fn bad_bounds(least: u32, most: u32) -> bool {
    least > most || least > MAX_BOUND || (most > MAX_BOUND && most != NO_UPPER_END)
}

/// 10: the earliest frame with bad bounds; the first of the lists belongs to the given frame.
pub fn bounds(first: u64, frames: Frames) -> Checked {
    let mut pairs = frames.least.iter().zip(frames.most);
    match pairs.position(|(&least, &most)| bad_bounds(least, most)) {
        Some(place) => Err(Refusal::BadBounds {
            frame: first + place as u64,
        }),
        None => Ok(()),
    }
}

/// What the end charge misses when nothing is used: end less start less all harvest, 0 if it is reached.
pub fn missing(store: Store, harvest: &[u32]) -> u64 {
    let all: u64 = harvest.iter().map(|&h| u64::from(h)).sum();
    store.end.saturating_sub(store.start + all)
}

/// 9: start plus all harvest is below the end charge.
pub fn end_charge(store: Store, harvest: &[u32]) -> Checked {
    let missing = missing(store, harvest);
    refuse_if(missing > 0, Refusal::OutOfReach { missing })
}

/// 9 and 11: the end charge; the leasts taken as budgets are not feasible.
pub fn reach(store: Store, frames: Frames) -> Checked {
    end_charge(store, frames.harvest)?;
    refuse_if(!feasible(store, frames, frames.least), Refusal::LeastsOutOfReach)
}

/// 20: every frame is recorded already.
pub fn frames_left(recorded: u64, frames: u64) -> Checked {
    refuse_if(recorded == frames, Refusal::AllRecorded)
}

/// 21: use greater than charge plus harvest.
pub fn use_within(charge: u64, harvest: u32, used: u32) -> Checked {
    let excess = u64::from(used).saturating_sub(at_hand(charge, harvest));
    refuse_if(excess > 0, Refusal::UseTooGreat { excess })
}

/// 1, 2 and 7: the number of frames, and the lists of bounds.
pub fn lists(lists: Frames) -> Checked {
    frames(lists.harvest.len())?;
    same_length(lists.least.len(), lists.harvest.len())?;
    same_length(lists.most.len(), lists.harvest.len())
}

/// Planning: 1, 2, 7, 3, 4, 5, 6, 10, 9, 11.
pub fn plan(request: Figures, frames: Frames, budgets: usize) -> Checked {
    lists(frames)?;
    same_length(budgets, frames.harvest.len())?;
    figures(request, frames.harvest)?;
    bounds(1, frames)?;
    reach(request.into(), frames)
}

/// 3 where no capacity is given: start or end.
pub fn charges(request: Figures) -> Checked {
    let Figures { start, end, .. } = request;
    refuse_if(start > MAX_CAPACITY || end > MAX_CAPACITY, Refusal::CapacityAboveLimit)
}

/// The needed capacity: 1, 2, 7, 3 for start or end, 6, 10, 9, and 11 with unlimited storage.
pub fn needed(request: Figures, frames: Frames) -> Checked {
    lists(frames)?;
    charges(request)?;
    harvests(1, frames.harvest)?;
    bounds(1, frames)?;
    reach(unlimited(request.into(), frames.harvest), frames)
}

/// Tracing: 1, 2, 7, 3, 4, 5, 6.
pub fn trace(request: Figures, harvest: &[u32], budgets: usize, charges: usize, losses: usize) -> Checked {
    frames(harvest.len())?;
    same_length(budgets, harvest.len())?;
    same_length(charges, harvest.len())?;
    same_length(losses, harvest.len())?;
    figures(request, harvest)
}

/// Starting a shift: 1, 2, 7, 3, 4, 5, 6, 10, 9, 11.
pub fn start(request: Figures, frames: Frames) -> Checked {
    plan(request, frames, frames.harvest.len())
}

/// Writing a word file: 1, 2, 7 for lists of bounds and for a list too short, 3, 4, 5, 6, 10.
pub fn write(request: Figures, frames: Frames, room: usize) -> Checked {
    lists(frames)?;
    refuse_if(room < file_bytes(frames), Refusal::WrongLength)?;
    figures(request, frames.harvest)?;
    bounds(1, frames)
}
