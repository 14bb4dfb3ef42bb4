//! Planning, tracing and grading by the linked library, with lists that the answer owns.

use crate::answers::{Figures, Trace};
use crate::frames::Frames;
use crate::interface::Energy;
use crate::linked::Linked;
use crate::refusal::Refusal;
use crate::MAX_FRAMES;

/// A list for so many frames, or for the most where more are refused by 2 before any list is looked at.
pub(crate) fn list_for<V: Clone + Default>(frames: usize) -> Vec<V> {
    vec![V::default(); frames.min(MAX_FRAMES)]
}

/// The plan of a request: a budget for each frame, feasible, and best for every concave, never falling reward curve at once.
///
/// ```
/// use energy::{Figures, Frames};
///
/// let figures = Figures { capacity: 5, start: 2, end: 2 };
/// let budgets = energy::plan(figures, Frames::unbounded(&[6, 4, 0, 0, 5, 5]))?;
/// assert_eq!(budgets, [4, 3, 3, 2, 4, 4]);
/// # Ok::<(), energy::Refusal>(())
/// ```
///
/// # Errors
///
/// Refused by 1, 2, 7, 3, 4, 5, 6, 10, 9 or 11, the numbers of [`Refusal`]: the first that holds.
pub fn plan(figures: Figures, frames: Frames<'_>) -> Result<Vec<u32>, Refusal> {
    let mut budgets = list_for(frames.harvest.len());
    Linked.plan(figures, frames, &mut budgets)?;
    Ok(budgets)
}

/// The needed capacity: the least one with which every such curve is served as well as with unlimited storage. The capacity
/// of the figures plays no part.
///
/// ```
/// use energy::{Figures, Frames};
///
/// let figures = Figures { capacity: 5, start: 2, end: 2 };
/// assert_eq!(energy::needed(figures, Frames::unbounded(&[6, 4, 0, 0, 5, 5]))?, 6);
/// # Ok::<(), energy::Refusal>(())
/// ```
///
/// # Errors
///
/// Refused by 1, 2, 7, 3, 6, 10, 9 or 11, the numbers of [`Refusal`]: the first that holds.
pub fn needed(figures: Figures, frames: Frames<'_>) -> Result<u64, Refusal> {
    Linked.needed(figures, frames)
}

/// The charges and losses to which any budgets lead, and whether they are feasible; no least and no most counts here.
/// Where a plan is refused by 11 ([`LeastsOutOfReach`](Refusal::LeastsOutOfReach)), a trace of the leasts as budgets tells where
/// they fail.
///
/// ```
/// use energy::{Figures, Verdict};
///
/// let figures = Figures { capacity: 5, start: 2, end: 2 };
/// let trace = energy::trace(figures, &[6, 4, 0], &[0, 4, 7])?;
/// assert_eq!(trace.verdict, Verdict::EndTooLow);
/// assert_eq!((trace.charges, trace.losses), (vec![5, 5, -2], vec![3, 0, 0]));
/// # Ok::<(), energy::Refusal>(())
/// ```
///
/// # Errors
///
/// Refused by 1, 2, 7, 3, 4, 5 or 6, the numbers of [`Refusal`]: the first that holds.
pub fn trace(figures: Figures, harvest: &[u32], budgets: &[u32]) -> Result<Trace, Refusal> {
    let (mut charges, mut losses) = (list_for(harvest.len()), list_for(harvest.len()));
    let verdict = Linked.trace(figures, harvest, budgets, &mut charges, &mut losses)?;
    Ok(Trace {
        verdict,
        charges,
        losses,
    })
}

/// What any budgets earn by the house curves 0, 1 and 2.
///
/// ```
/// assert_eq!(energy::grade(&[4, 3, 3, 2, 4, 4])?, [320, 480, 100]);
/// # Ok::<(), energy::Refusal>(())
/// ```
///
/// # Errors
///
/// Refused by 1 or 2, the numbers of [`Refusal`]: the first that holds.
pub fn grade(budgets: &[u32]) -> Result<[u64; 3], Refusal> {
    Linked.grade(budgets)
}
