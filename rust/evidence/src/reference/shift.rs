//! The shift as functions of its record, for any record, an impossible one too.

use super::charge::{frame, frames_from, Store};
use super::limits::{MAX_CAPACITY, MAX_FRAMES, MAX_HARVEST};
use super::refusals::{self, refuse_if, Checked};
use energy::{Figures, Frames, NotRecorded, Present, Refusal, Rest, Shift, Terms, Totals};

/// How a plan is made.
pub type PlanMethod = fn(Store, Frames) -> Vec<u32>;

/// Starts a shift from a valid, reachable request.
pub fn start(figures: Figures, frames: Frames) -> Result<Shift, Refusal> {
    refusals::start(figures, frames)?;
    Ok(Shift {
        terms: terms(figures, frames.harvest.len()),
        now: Present {
            recorded: 0,
            charge: figures.start,
            totals: Totals::default(),
        },
    })
}

/// What a shift of so many frames is started with.
pub fn terms(figures: Figures, frames: usize) -> Terms {
    Terms {
        frames: frames as u32,
        capacity: figures.capacity,
        start: figures.start,
        end: figures.end,
    }
}

/// A frame by itself: its typed figures and its loss.
pub fn entry(harvest: u32, used: u32, lost: u64) -> Totals {
    Totals {
        harvested: harvest.into(),
        used: used.into(),
        lost,
    }
}

/// The totals with a frame's.
pub fn joined(totals: Totals, frame: Totals) -> Totals {
    Totals {
        harvested: totals.harvested + frame.harvested,
        used: totals.used + frame.used,
        lost: totals.lost + frame.lost,
    }
}

/// 22: a record that isn't one.
fn is_shift(s: &Shift) -> Checked {
    let Shift { terms, now } = s;
    let good = now.recorded <= terms.frames
        && (1..=MAX_FRAMES).contains(&(terms.frames as usize))
        && terms.capacity <= MAX_CAPACITY
        && now.charge <= terms.capacity
        && terms.start <= terms.capacity
        && terms.end <= terms.capacity
        && now.totals.harvested <= u64::from(MAX_HARVEST) * u64::from(now.recorded)
        && balances(terms.start, now.charge, now.totals);
    refuse_if(!good, Refusal::NotShift)
}

/// Start plus what was harvested is the charge plus what was used and lost.
pub fn balances(start: u32, charge: u32, totals: Totals) -> bool {
    let Totals { harvested, used, lost } = totals;
    u128::from(start) + u128::from(harvested) == u128::from(charge) + u128::from(used) + u128::from(lost)
}

/// 20: every frame is recorded already.
fn frames_left(s: &Shift) -> Checked {
    refusals::frames_left(s.now.recorded.into(), s.terms.frames.into())
}

/// Recording: 22, 20, 6 with the frame being recorded, 21.
fn record_refusal(s: &Shift, harvest: u32, used: u32) -> Checked {
    is_shift(s)?;
    frames_left(s)?;
    refusals::harvests(u64::from(s.now.recorded) + 1, &[harvest])?;
    refusals::use_within(s.now.charge.into(), harvest, used)
}

/// Records the actual harvest and use of the next frame; a refusal hands back the shift as it was.
pub fn record(s: Shift, harvest: u32, used: u32) -> Result<Shift, NotRecorded> {
    record_refusal(&s, harvest, used).map_err(|refusal| NotRecorded { refusal, shift: s })?;
    let end = frame(s.terms.capacity.into(), s.now.charge.into(), harvest, used);
    Ok(Shift {
        now: Present {
            recorded: s.now.recorded + 1,
            charge: end.charge as u32,
            totals: joined(s.now.totals, entry(harvest, used, end.lost)),
        },
        ..s
    })
}

/// Plans the frames not yet recorded, by the lists lent: 22, 7, 20, and 6 and 10 over these.
pub fn plan_rest(s: Shift, frames: Frames, budgets: &mut [u32], method: PlanMethod) -> Result<Rest, Refusal> {
    is_shift(&s)?;
    lengths(frames, budgets.len(), s.terms.frames as usize)?;
    frames_left(&s)?;
    rest(s.terms, s.now.recorded as usize, s.now.charge, frames, budgets, method)
}

/// 7: the lists lent for planning the rest.
pub fn lengths(lent: Frames, budgets: usize, frames: usize) -> Checked {
    for length in [lent.harvest.len(), lent.least.len(), lent.most.len(), budgets] {
        refusals::same_length(length, frames)?;
    }
    Ok(())
}

/// The plan of the frames that are left, for which the present charge stands for the start charge, or, where nothing is
/// feasible, what they miss and budgets of 0. Refuses 6 and 10.
pub fn rest(
    terms: Terms,
    recorded: usize,
    charge: u32,
    frames: Frames,
    budgets: &mut [u32],
    method: PlanMethod,
) -> Result<Rest, Refusal> {
    let (left, open) = (frames_from(frames, recorded), &mut budgets[recorded..]);
    let next = recorded as u64 + 1;
    refusals::harvests(next, left.harvest)?;
    refusals::bounds(next, left)?;
    let store = Store {
        capacity: terms.capacity.into(),
        start: charge.into(),
        end: terms.end.into(),
    };
    if refusals::reach(store, left).is_err() {
        open.fill(0);
        let missing = refusals::missing(store, left.harvest);
        return Ok(Rest::Short { missing });
    }
    open.copy_from_slice(&method(store, left));
    Ok(Rest::Planned)
}

/// The part of the budgets that begins at the next frame: 22, 7, 20.
pub fn rest_part(s: Shift, budgets: &[u32]) -> Result<&[u32], Refusal> {
    is_shift(&s)?;
    refusals::same_length(budgets.len(), s.terms.frames as usize)?;
    frames_left(&s)?;
    Ok(&budgets[s.now.recorded as usize..])
}
