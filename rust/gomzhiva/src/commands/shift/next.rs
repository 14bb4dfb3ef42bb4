//! What follows a recording: the budget of the next frame, and doubts about what was recorded.

use super::words::short_by;
use crate::journal::Running;
use crate::request::Bound;
use energy::Rest;

/// The budget of the next frame, in words; nothing once every frame is recorded.
pub fn step(running: &Running) -> Option<String> {
    let (rest, budgets) = running.plan_rest(false).ok()?;
    let frame = running.forecast.calendar.name(running.recorded.len());
    let short = short_by(rest).map_or(String::new(), |short| format!("; {short}"));
    Some(format!("Next: a budget of {} Wh for {frame}{short}.", budgets.first()?))
}

/// What is doubtful about a use that was recorded as the next frame's, in words.
pub fn doubt(before: &Running, used: u32) -> Option<String> {
    let frame = before.recorded.len();
    let beyond = beyond_bound(before, frame, used).or_else(|| beyond_budget(before, used))?;
    let name = before.forecast.calendar.name(frame);
    Some(format!(
        "the use of {used} Wh is {beyond} of {name}; it is recorded all the same"
    ))
}

fn beyond_bound(before: &Running, frame: usize, used: u32) -> Option<String> {
    let listed = |bound: Bound| before.forecast.list(bound)[frame];
    let bound = Bound::ALL
        .into_iter()
        .find(|bound| bound.is_left_by(used, listed(*bound)))?;
    Some(format!(
        "{} the {} of {} Wh",
        bound.beyond(),
        bound.name(),
        listed(bound)
    ))
}

/// A rest that is short has no budget to compare with.
fn beyond_budget(before: &Running, used: u32) -> Option<String> {
    match before.plan_rest(false) {
        Ok((Rest::Planned, budgets)) => {
            let budget = *budgets.first()?;
            let is_far = u64::from(used) > 2 * u64::from(budget);
            is_far.then(|| format!("more than twice the budget of {budget} Wh"))
        }
        _ => None,
    }
}
