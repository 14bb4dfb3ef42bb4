//! What bounds cost: the families with leasts and mosts against the same without, summed over all capacities. The
//! nested bounds are in no sum.

use crate::contenders::{Call, CALLS};
use crate::measured::{Measured, Unit, UNITS};
use crate::rows::{Kind, Row};
use crate::words::verdict;
use evidence::families::FRAMES;

/// The aim for all families together, and the ratio above which a family is named.
const TOGETHER: f64 = 1.5;
const ALONE: f64 = 2.5;

/// The rows with bounds that are chosen, against the same rows without.
fn cost(measured: &Measured, unit: Unit, call: Call, is_chosen: impl Fn(&Row) -> bool) -> Option<f64> {
    let sum = |bounded| {
        let rows = measured.rows(|row| row.is_summed() && row.bounded == bounded && is_chosen(row));
        measured.library(unit, call, &rows)
    };
    Some(sum(true)? / sum(false)?)
}

/// What bounds cost at a number of frames, with the families that are named; in cold times there is no aim.
fn at(measured: &Measured, unit: Unit, call: Call, frames: usize) -> Option<String> {
    let all = cost(measured, unit, call, |row| row.frames == frames)?;
    if unit == Unit::Cold {
        return Some(format!("{all:.2}"));
    }
    let mut text = format!("{all:.2} {}", verdict(all <= TOGETHER));
    for kind in Kind::all() {
        let alone = cost(measured, unit, call, |row| (row.kind, row.frames) == (kind, frames));
        if let Some(alone) = alone.filter(|alone| ALONE < *alone) {
            text += &format!(" ({} {alone:.2})", kind.name());
        }
    }
    Some(text)
}

/// What bounds cost in one unit at every number of frames.
fn part(measured: &Measured, unit: Unit, call: Call) -> Option<String> {
    let costs: Option<Vec<String>> = FRAMES.iter().map(|&frames| at(measured, unit, call, frames)).collect();
    Some(format!("{} {}", unit.name(), costs?.join(", ")))
}

/// The section: a line for each call.
pub fn report(measured: &Measured) -> String {
    let frames = FRAMES.map(|frames| frames.to_string()).join(", ");
    let mut text = format!(
        "\n## Bounds\n\nFamilies with leasts and mosts at most {TOGETHER} of without, summed at {frames} frames; \
         those above {ALONE} named.\n\n"
    );
    for call in CALLS {
        let parts: Vec<String> = UNITS.iter().filter_map(|&unit| part(measured, unit, call)).collect();
        text += &format!("- {}: {}\n", call.name(), parts.join("; "));
    }
    text
}
