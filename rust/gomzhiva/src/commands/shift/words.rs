//! How a shift stands and what is planned for the rest, in words.

use crate::commands::budgets::Budgets;
use crate::commands::WITHOUT_LEASTS;
use crate::report::{counted, ending, lost, mean, sum};
use crate::request::{Bound, Store};
use energy::{Rest, Shift};

/// Whether every frame is recorded.
pub fn is_finished(shift: &Shift) -> bool {
    shift.now.recorded == shift.terms.frames
}

/// How a shift stands.
pub fn standing(shift: &Shift) -> String {
    let Shift { terms, now } = shift;
    let finished = if is_finished(shift) {
        format!(" Finished: {}.", ending(now.charge.into(), terms.end))
    } else {
        String::new()
    };
    format!(
        "{} of {} recorded; charge {} Wh of a capacity of {} Wh; {} Wh harvested, {} Wh used, {} Wh lost.{finished}",
        now.recorded,
        counted(terms.frames as usize, "frame"),
        now.charge,
        terms.capacity,
        now.totals.harvested,
        now.totals.used,
        now.totals.lost,
    )
}

/// What a finished shift's charge misses.
pub fn missed_end(shift: &Shift) -> Option<String> {
    let (charge, end) = (shift.now.charge, shift.terms.end);
    let missed = is_finished(shift) && charge < end;
    missed.then(|| ending(charge.into(), end))
}

/// How much a rest is short of.
pub fn short_by(rest: Rest) -> Option<String> {
    match rest {
        Rest::Planned => None,
        Rest::Short { missing: 0 } => Some("the rest is short: nothing within its bounds is feasible".into()),
        Rest::Short { missing } => Some(format!("the rest is short by {missing} Wh")),
    }
}

/// How the plan of the rest goes, and what there is to say of its bounds: how the leasts fail where it is short, or where a plan
/// without the leasts is below them.
pub fn rest_words(rest: Rest, traced: &Budgets<'_>, without_leasts: bool) -> (String, Option<String>) {
    let bounds = if without_leasts {
        traced.outside()
    } else {
        leasts_fail(rest, traced)
    };
    (course(rest, traced), bounds)
}

fn course(rest: Rest, traced: &Budgets<'_>) -> String {
    let end = traced.request.figures.end;
    let left = counted(traced.budgets.len(), "frame");
    match rest {
        Rest::Planned => format!(
            "{left} left: {} Wh expected, {} Wh budgeted (mean {}), {}. {}.",
            sum(&traced.request.frames.harvest),
            sum(&traced.budgets),
            mean(&traced.budgets),
            lost(&traced.losses),
            traced.course(),
        ),
        Rest::Short { missing: 0 } => format!(
            "Short: nothing within the bounds of the {left} left is feasible, so every budget is 0; with nothing used, the end charge of {end} Wh is reached."
        ),
        Rest::Short { missing } => format!(
            "Short: with nothing used in the {left} left, the end charge of {end} Wh is still missed by {missing} Wh, so every budget is 0."
        ),
    }
}

/// How the leasts of a short rest fail, and what can be planned all the same: nothing where the end charge is missed anyway.
fn leasts_fail(rest: Rest, traced: &Budgets<'_>) -> Option<String> {
    let request = traced.request;
    let advice = match rest {
        Rest::Planned => return None,
        Rest::Short { missing: 0 } => format!("; {WITHOUT_LEASTS}"),
        Rest::Short { .. } => String::new(),
    };
    let has_leasts = request.frames.bounds().contains(&Bound::Least);
    let fail = has_leasts.then(|| request.leasts_fail(Store::OfRequest))??;
    Some(format!("As budgets the leasts {fail}{advice}."))
}
