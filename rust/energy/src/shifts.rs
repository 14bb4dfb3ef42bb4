//! A running shift by the linked library, with budgets that the answer owns.

use crate::answers::{Figures, NotRecorded, RestPlan, Shift};
use crate::calls::list_for;
use crate::frames::Frames;
use crate::interface::Energy;
use crate::linked::Linked;
use crate::refusal::Refusal;

/// Starts a shift from a request that has a plan.
///
/// ```
/// use energy::{Figures, Frames};
///
/// let figures = Figures { capacity: 5, start: 2, end: 2 };
/// let shift = energy::start(figures, Frames::unbounded(&[6, 4, 0, 0, 5, 5]))?;
/// assert_eq!((shift.terms.frames, shift.now.recorded, shift.now.charge), (6, 0, 2));
/// # Ok::<(), energy::Refusal>(())
/// ```
///
/// # Errors
///
/// Refused by 1, 2, 7, 3, 4, 5, 6, 10, 9 or 11, the numbers of [`Refusal`]: the first that holds.
pub fn start(figures: Figures, frames: Frames<'_>) -> Result<Shift, Refusal> {
    Linked.shift_start(figures, frames)
}

/// Records the actual harvest and use of the next frame, and gives the shift as it stands after that frame. No least and no
/// most bounds the use.
///
/// The shift is a value, so the one given can be recorded anew.
///
/// ```
/// # let figures = energy::Figures { capacity: 5, start: 2, end: 2 };
/// # let shift = energy::start(figures, energy::Frames::unbounded(&[6, 4, 0, 0, 5, 5]))?;
/// let next = energy::record(shift, 1, 3)?;
/// assert_eq!((next.now.recorded, next.now.charge), (1, 0));
///
/// let not = energy::record(next, 0, 9).unwrap_err();
/// assert_eq!(not.refusal, energy::Refusal::UseTooGreat { excess: 9 });
/// assert_eq!(not.shift, next);
/// # Ok::<(), energy::Refusal>(())
/// ```
///
/// # Errors
///
/// Refused by 22, 20, 6 or 21, the numbers of [`Refusal`]: the first that holds. Beside it is the shift as it was given.
pub fn record(shift: Shift, harvest: u32, used: u32) -> Result<Shift, NotRecorded> {
    Linked.shift_record(shift, harvest, used)
}

/// The plan of the frames not yet recorded, by the harvests and bounds lent. These are still those of all frames; what they
/// say of recorded ones plays no part.
///
/// A rest in which nothing is feasible is no refusal: it is [`Short`](crate::Rest::Short).
///
/// Who keeps a list of the whole day copies the budgets behind those of the recorded frames, as here, or lends the list to
/// [`Energy::shift_plan_rest`], which leaves those alone.
///
/// ```
/// use energy::{Figures, Frames, Rest};
///
/// let figures = Figures { capacity: 5, start: 2, end: 2 };
/// let frames = Frames::unbounded(&[6, 4, 0, 0, 5, 5]);
/// let mut day = energy::plan(figures, frames)?;
/// let shift = energy::record(energy::start(figures, frames)?, 1, 3)?;
///
/// let plan = energy::plan_rest(shift, frames)?;
/// assert_eq!(plan.rest, Rest::Planned);
/// assert_eq!(plan.budgets, [2, 1, 1, 4, 4]);
/// day[shift.now.recorded as usize..].copy_from_slice(&plan.budgets);
/// assert_eq!(day, [4, 2, 1, 1, 4, 4]);
/// # Ok::<(), energy::Refusal>(())
/// ```
///
/// # Errors
///
/// Refused by 22, 7, 20, 6 or 10, the numbers of [`Refusal`]: the first that holds. 6 and 10 are looked for in the
/// frames not yet recorded.
pub fn plan_rest(shift: Shift, frames: Frames<'_>) -> Result<RestPlan, Refusal> {
    let mut day = list_for(shift.terms.frames as usize);
    let rest = Linked.shift_plan_rest(shift, frames, &mut day)?;
    let budgets = Linked.shift_rest_part(shift, &day)?.to_vec();
    Ok(RestPlan { rest, budgets })
}
