//! The aim for growth: every family, summed over its capacities, from half a week to a week in instructions.

use crate::contenders::{Call, CALLS};
use crate::measured::{Measured, GROWTH, HALF_WEEK, WEEK};
use crate::rows::{Figure, Kind, Row};
use crate::words::{named, verdict, with_or_without};

/// A family's growth, if it has such rows.
fn of_family(measured: &Measured, call: Call, kind: Kind, bounded: bool) -> Option<(f64, String)> {
    let rows = measured.rows(|row| (row.kind, row.bounded, row.frames) == (kind, bounded, WEEK));
    Some((measured.growth(call, &rows)?, rows.first()?.family()))
}

/// The single rows that grow by more than the limit.
fn rows_above(measured: &Measured, call: Call, bounded: bool) -> String {
    let rows = measured.rows(|row| row.bounded == bounded);
    let growth = |row: Row| Some((row, measured.growth(call, &[row])?));
    let growths: Vec<Figure> = rows.into_iter().filter_map(growth).collect();
    named(&growths, GROWTH)
}

/// The worst family of a call or all that miss the aim, and the single rows.
fn line(measured: &Measured, call: Call, bounded: bool) -> Option<String> {
    let family = |kind| of_family(measured, call, kind, bounded);
    let mut families: Vec<(f64, String)> = Kind::all().into_iter().filter_map(family).collect();
    families.sort_by(|a, b| b.0.total_cmp(&a.0));
    families.first()?;
    let misses = families.iter().filter(|(growth, _)| GROWTH < *growth).count();
    let told = families.iter().take(misses.max(1));
    let told: Vec<String> = told.map(|(growth, name)| format!("{growth:.2} {name}")).collect();
    let rows = rows_above(measured, call, bounded);
    let rows = if rows.is_empty() {
        rows
    } else {
        format!("; rows above: {rows}")
    };
    let (bounds, met, told) = (with_or_without(bounded), verdict(misses == 0), told.join(", "));
    Some(format!("  - {} {bounds}: {met}, the worst {told}{rows}\n", call.name()))
}

/// The growth of both calls without bounds and with them; nothing where instructions were not counted.
pub fn report(measured: &Measured) -> String {
    let lines = CALLS
        .iter()
        .flat_map(|&call| [false, true].map(|bounded| line(measured, call, bounded)));
    let lines: String = lines.flatten().collect();
    if lines.is_empty() {
        return lines;
    }
    format!("- growth from {HALF_WEEK} to {WEEK} frames at most {GROWTH} in every family in instructions\n{lines}")
}
