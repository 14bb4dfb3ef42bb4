//! Random leasts and mosts for requests that have none.
//!
//! A least or a most is drawn around the budget that the frame has without bounds, so that it binds now and then; what a
//! kind leaves out is absent. Where the leasts are not feasible together, what they ask above those budgets is halved
//! until they are.

use crate::algorithms::certificate::frame::NO_UPPER_END;
use crate::random::Random;
use energy::Figures;

/// Which frames are bounded, and how closely.
#[derive(Clone, Copy, Debug, PartialEq, Eq)]
pub enum Kind {
    /// Leasts and mosts in half of the frames each: about a third of all budgets are at a bound.
    Mixed,
    /// The same, but loose: few bind.
    Loose,
    /// A least and a most near to each other in every frame: nearly all bind.
    Close,
    Leasts,
    Mosts,
    /// Half of the frames have a least that is their most.
    Fixed,
    /// A most below the budget in every frame: energy is lost.
    Lossy,
    /// Leasts and mosts in half of the frames each, around the mean of all budgets.
    Level,
}

/// All kinds.
pub const KINDS: [Kind; 8] = [
    Kind::Mixed,
    Kind::Loose,
    Kind::Close,
    Kind::Leasts,
    Kind::Mosts,
    Kind::Fixed,
    Kind::Lossy,
    Kind::Level,
];

/// Whether leasts can be kept, each as the budget of its frame.
fn are_feasible(figures: Figures, harvest: &[u32], least: &[u32]) -> bool {
    let capacity = u64::from(figures.capacity);
    let mut charge = u64::from(figures.start);
    for (&h, &l) in harvest.iter().zip(least) {
        let have = charge.min(capacity) + u64::from(h);
        if have < u64::from(l) {
            return false;
        }
        charge = have - u64::from(l);
    }
    u64::from(figures.end) <= charge.min(capacity)
}

/// The least and the most of a frame with a budget, where the mean of all budgets is `mean`.
fn pair(kind: Kind, budget: u32, mean: u32, random: &mut Random) -> (u32, u32) {
    let (has_least, has_most) = (random.one_in(2), random.one_in(2));
    let least = random.up_to_u32(budget + budget / 2);
    let most = budget / 2 + random.up_to_u32(budget + budget / 2);
    let close = budget / 2 + random.up_to_u32(budget / 8) + least / 2;
    let some = |has: bool, bound: u32, absent: u32| if has { bound } else { absent };
    match kind {
        Kind::Mixed => (some(has_least, least, 0), some(has_most, most, NO_UPPER_END)),
        Kind::Loose => (some(has_least, least / 2, 0), some(has_most, most * 2, NO_UPPER_END)),
        Kind::Close => (close, close + random.up_to_u32(budget / 16 + 1)),
        Kind::Leasts => (some(has_least, least, 0), NO_UPPER_END),
        Kind::Mosts => (0, some(has_most, most, NO_UPPER_END)),
        Kind::Fixed => (some(has_least, least, 0), some(has_least, least, NO_UPPER_END)),
        Kind::Lossy => (0, random.up_to_u32(budget)),
        Kind::Level => (
            some(has_least, random.up_to_u32(mean), 0),
            some(has_most, random.up_to_u32(mean * 2), NO_UPPER_END),
        ),
    }
}

/// Random leasts and mosts for a request whose plan without bounds is `plan`.
pub fn around(
    kind: Kind,
    figures: Figures,
    harvest: &[u32],
    plan: &[u32],
    random: &mut Random,
) -> (Vec<u32>, Vec<u32>) {
    let all: u64 = plan.iter().map(|&b| u64::from(b)).sum();
    let mean = (all / plan.len() as u64) as u32;
    let pairs: Vec<(u32, u32)> = plan.iter().map(|&b| pair(kind, b, mean, random)).collect();
    let mut least: Vec<u32> = pairs.iter().map(|&(l, _)| l).collect();
    let mut most: Vec<u32> = pairs.iter().map(|&(l, m)| m.max(l)).collect();
    while !are_feasible(figures, harvest, &least) {
        for (i, &budget) in plan.iter().enumerate() {
            let excess = least[i].saturating_sub(budget);
            let fixed = least[i] == most[i];
            least[i] -= excess - excess / 2;
            if fixed {
                most[i] = least[i];
            }
        }
    }
    (least, most)
}
