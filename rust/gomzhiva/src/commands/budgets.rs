//! Budgets with the charges and losses that they lead to.

use super::columns::frame_columns;
use crate::chart::{svg, Picture};
use crate::failure::Failure;
use crate::report::{column, counted, lost, mean, sum, Table};
use crate::request::{Bound, Request};
use energy::{Figures, Trace, Verdict};

/// A request's budgets, planned or supplied, and what the proved tracer says of them.
pub struct Budgets<'a> {
    pub request: &'a Request,
    pub budgets: Vec<u32>,
    pub charges: Vec<i64>,
    pub losses: Vec<u32>,
    pub verdict: Verdict,
}

impl<'a> Budgets<'a> {
    pub fn trace(request: &'a Request, budgets: Vec<u32>) -> Result<Budgets<'a>, Failure> {
        let traced = energy::trace(request.figures, &request.frames.harvest, &budgets);
        let Trace {
            verdict,
            charges,
            losses,
        } = traced.map_err(|refusal| request.refused_budgets(refusal, budgets.len()))?;
        Ok(Budgets {
            request,
            budgets,
            charges,
            losses,
            verdict,
        })
    }

    /// The table of the frames, with columns for these bounds.
    pub fn table(&self, bounds: &[Bound]) -> Table {
        let mut columns = frame_columns(&self.request.frames, bounds);
        columns.extend([
            ("budget", column(&self.budgets)),
            ("charge", column(&self.charges)),
            ("loss", column(&self.losses)),
        ]);
        Table { columns }
    }

    /// What is harvested, budgeted and lost in all, in words.
    pub fn energies(&self) -> String {
        let budgets = &self.budgets;
        // Beside bounds, `most` is the name of one.
        let largest = if self.request.frames.is_bounded() {
            "largest"
        } else {
            "most"
        };
        format!(
            "{}: {} Wh harvested, {} Wh budgeted (mean {}, {largest} {}), {}.",
            counted(budgets.len(), "frame"),
            sum(&self.request.frames.harvest),
            sum(budgets),
            mean(budgets),
            budgets.iter().max().unwrap_or(&0),
            lost(&self.losses),
        )
    }

    /// From which charge to which a plan goes, in words: above the end charge only where mosts leave no other way.
    pub fn course(&self) -> String {
        let (Figures { start, end, .. }, last) = (self.request.figures, self.last_charge());
        let asked = if last > i64::from(end) {
            format!(", where {end} Wh were asked for")
        } else {
            String::new()
        };
        format!("The charge goes from {start} to {last} Wh{asked}")
    }

    /// The charge after the last frame.
    pub fn last_charge(&self) -> i64 {
        self.charges.last().copied().unwrap_or_default()
    }

    /// Where budgets are outside the bounds of the request, at which the tracer does not look, in words.
    pub fn outside(&self) -> Option<String> {
        let Budgets { request, budgets, .. } = self;
        let frames = &request.frames;
        let outside = |(frame, &budget): (usize, &u32)| {
            let is_left = |bound: &Bound| bound.is_left_by(budget, frames.list(*bound)[frame]);
            Bound::ALL.into_iter().find(is_left).map(|bound| (frame, bound))
        };
        let outside: Vec<(usize, Bound)> = budgets.iter().enumerate().filter_map(outside).collect();
        let &(frame, bound) = outside.first()?;
        let place = match outside.len() {
            1 => String::new(),
            several => format!("{several} frames, first in "),
        };
        Some(format!(
            "Not within the bounds in {place}{}: its budget of {} Wh is {} its {} of {} Wh.",
            frames.calendar.name(frame),
            budgets[frame],
            bound.beyond(),
            bound.name(),
            frames.list(bound)[frame],
        ))
    }

    /// The picture as an SVG text, with this needed capacity.
    pub fn picture(&self, title: &str, needed: Option<u64>) -> String {
        let Request { figures, frames } = self.request;
        svg(&Picture {
            title,
            calendar: frames.calendar,
            capacity: figures.capacity,
            needed,
            start: figures.start,
            end: figures.end,
            harvest: &frames.harvest,
            least: &frames.least,
            most: &frames.most,
            budgets: &self.budgets,
            charges: &self.charges,
            losses: &self.losses,
            recorded: 0,
        })
    }
}
