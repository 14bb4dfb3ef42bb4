//! The aims for the speed of single rows, with those that are named.

use crate::contenders::{Call, Contender};
use crate::measured::{Measured, Unit, HALF_WEEK, TIMES, WEEK};
use crate::rows::{Figure, Row};
use crate::words::{named, verdict, worst};

/// An aim: a figure of a call is at most a limit. Rows above another one are named, or the worst alone.
struct Aim {
    what: &'static str,
    call: Call,
    limit: f64,
    named_above: Option<f64>,
    figure: fn(&Measured, Unit, Call, Row) -> Option<f64>,
}

/// The ratio to the source's algorithm at half a week and more.
fn to_source(measured: &Measured, unit: Unit, call: Call, row: Row) -> Option<f64> {
    let ratio = measured.ratio(unit, call, Contender::Source, &[row]);
    ratio.filter(|_| HALF_WEEK <= row.frames)
}

/// The ratio to the twin.
fn to_twin(measured: &Measured, unit: Unit, call: Call, row: Row) -> Option<f64> {
    measured.ratio(unit, call, Contender::Twin, &[row])
}

/// The microseconds of a week.
fn week(measured: &Measured, unit: Unit, call: Call, row: Row) -> Option<f64> {
    measured.library(unit, call, &[row]).filter(|_| row.frames == WEEK)
}

const AIMS: [Aim; 6] = [
    Aim {
        what: "plan at most 1.3 of the source's Algorithm 2 at half a week and more, slower rows named",
        call: Call::Plan,
        limit: 1.3,
        named_above: Some(1.0),
        figure: to_source,
    },
    Aim {
        what: "needed capacity at most 1.3 of the source's Algorithm 1 at half a week and more",
        call: Call::Needed,
        limit: 1.3,
        named_above: Some(1.3),
        figure: to_source,
    },
    Aim {
        what: "plan at most 1.3 of the twin",
        call: Call::Plan,
        limit: 1.3,
        named_above: None,
        figure: to_twin,
    },
    Aim {
        what: "needed capacity at most 1.3 of the twin",
        call: Call::Needed,
        limit: 1.3,
        named_above: None,
        figure: to_twin,
    },
    Aim {
        what: "plan of a week at most 100 us",
        call: Call::Plan,
        limit: 100.0,
        named_above: None,
        figure: week,
    },
    Aim {
        what: "needed capacity of a week at most 100 us",
        call: Call::Needed,
        limit: 100.0,
        named_above: None,
        figure: week,
    },
];

impl Aim {
    /// Its figures in one unit, in the order of the rows.
    fn figures(&self, measured: &Measured, unit: Unit) -> Vec<Figure> {
        let figure = |&row: &Row| Some((row, (self.figure)(measured, unit, self.call, row)?));
        measured.rows.iter().filter_map(figure).collect()
    }

    /// Whether its figures in one unit meet it, and the worst row.
    fn judged(&self, measured: &Measured, unit: Unit) -> String {
        let figures = self.figures(measured, unit);
        let misses = figures.iter().filter(|(_, figure)| self.limit < *figure).count();
        let met = verdict(misses == 0);
        let worst = worst(&figures);
        format!(
            "{} {met}, {misses} of {} rows above, the worst {worst}",
            unit.name(),
            figures.len()
        )
    }

    /// A line of the rows that are named in one unit, if there are any.
    fn named(&self, measured: &Measured, unit: Unit) -> Option<String> {
        let figures = self.figures(measured, unit);
        let names = named(&figures, self.named_above?);
        (!names.is_empty()).then(|| format!("  - {}: {names}\n", unit.name()))
    }

    /// What becomes of it in warm and in cold times.
    fn report(&self, measured: &Measured) -> String {
        let judged = TIMES.map(|unit| self.judged(measured, unit)).join("; ");
        let named: String = TIMES.iter().filter_map(|&unit| self.named(measured, unit)).collect();
        format!("- {}: {judged}\n{named}", self.what)
    }
}

/// Every aim.
pub fn report(measured: &Measured) -> String {
    AIMS.iter().map(|aim| aim.report(measured)).collect()
}
