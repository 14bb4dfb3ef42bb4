//! Looks at whole lists without a branch: whether anything of a request is refused. What it is, where something is, the
//! reference finds.

use crate::reference::limits::{MAX_BOUND, MAX_CAPACITY, MAX_FRAMES, MAX_HARVEST, NO_UPPER_END};
use energy::{Figures, Frames};

/// Whether there are so many frames as a request may have, and so many entries in every other list.
pub fn lists_fit(frames: usize, lengths: &[usize]) -> bool {
    (1..=MAX_FRAMES).contains(&frames) && lengths.iter().all(|&length| length == frames)
}

/// Whether figures and harvests are within their limits.
pub fn figures_fit(figures: Figures, harvest: &[u32]) -> bool {
    let Figures { capacity, start, end } = figures;
    let within = |all: bool, &h: &u32| all & (h <= MAX_HARVEST);
    capacity <= MAX_CAPACITY && start.max(end) <= capacity && harvest.iter().fold(true, within)
}

/// Whether every frame has bounds that a frame may have.
pub fn bounds_fit(frames: Frames) -> bool {
    let good = |all: bool, (&least, &most): (&u32, &u32)| {
        let most_fits = (most <= MAX_BOUND) | (most == NO_UPPER_END);
        all & (least <= most) & (least <= MAX_BOUND) & most_fits
    };
    frames.least.iter().zip(frames.most).fold(true, good)
}
