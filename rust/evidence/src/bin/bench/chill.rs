//! What cold costs: the families' cold times against their warm ones, for every contender.

use crate::contenders::{Call, Contender, CALLS, CONTENDERS};
use crate::measured::{Measured, Unit, HALF_WEEK};
use crate::rows::{Figure, Row};
use crate::words::worst;

/// Some rows' cold times against their warm ones.
fn cost(measured: &Measured, call: Call, contender: Contender, rows: &[Row]) -> Option<f64> {
    let sum = |unit| measured.sum(unit, call, contender, rows);
    Some(sum(Unit::Cold)? / sum(Unit::Warm)?)
}

/// A contender's sums without bounds and with them, as far as it answers.
fn sums(measured: &Measured, call: Call, contender: Contender) -> Option<String> {
    let sum = |bounded| {
        let rows = measured.rows(|row| row.is_summed() && row.bounded == bounded && HALF_WEEK <= row.frames);
        Some(format!("{:.2}", cost(measured, call, contender, &rows)?))
    };
    let sums: Vec<String> = [false, true].into_iter().filter_map(sum).collect();
    sums.first()?;
    Some(format!("{} {}", measured.name(contender), sums.join(", ")))
}

/// The sums of all contenders, and the library's worst row.
fn line(measured: &Measured, call: Call) -> String {
    let of = |contender| sums(measured, call, contender);
    let sums: Vec<String> = CONTENDERS.into_iter().filter_map(of).collect();
    let of_row = |&row: &Row| Some((row, cost(measured, call, Contender::Library, &[row])?));
    let rows: Vec<Figure> = measured.rows.iter().filter_map(of_row).collect();
    let (name, sums) = (call.name(), sums.join("; "));
    format!("- {name}: {sums}; the library's worst row {}\n", worst(&rows))
}

/// The section: a line for each call.
pub fn report(measured: &Measured) -> String {
    let lines: String = CALLS.iter().map(|&call| line(measured, call)).collect();
    format!(
        "\n## Cold against warm\n\nFamilies without bounds, with bounds, summed at half a week and a week.\n\n{lines}"
    )
}
