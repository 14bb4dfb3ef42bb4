//! The picture of a shift: what happened, and behind it the plan of the rest.

use super::rest_request;
use crate::chart::{svg, Picture};
use crate::commands::budgets::Budgets;
use crate::journal::Running;
use crate::report::counted;

/// The picture as an SVG text, with this needed capacity of the rest; a finished shift has no rest, and notes stand in the title.
pub fn of_shift(running: &Running, rest: Option<&Budgets<'_>>, needed: Option<u64>, notes: &[String]) -> String {
    let request = rest_request(running);
    let harvest = [running.column(|r| r.harvest), request.frames.harvest.clone()].concat();
    let title = format!(
        "Shift: {} of {} recorded",
        running.recorded.len(),
        counted(harvest.len(), "frame")
    );
    let (budgets, charges, losses) = rest.map_or((&[][..], &[][..], &[][..]), |rest| {
        (&rest.budgets[..], &rest.charges[..], &rest.losses[..])
    });
    svg(&Picture {
        title: &notes.iter().fold(title, |title, note| format!("{title}; {note}")),
        calendar: running.forecast.calendar,
        capacity: request.figures.capacity,
        needed,
        start: running.shift.terms.start,
        end: request.figures.end,
        harvest: &harvest,
        least: &running.forecast.least,
        most: &running.forecast.most,
        budgets: &[&running.column(|r| r.used)[..], budgets].concat(),
        charges: &[&running.column(|r| r.charge.into())[..], charges].concat(),
        losses: &[&running.column(|r| r.loss)[..], losses].concat(),
        recorded: running.recorded.len(),
    })
}
