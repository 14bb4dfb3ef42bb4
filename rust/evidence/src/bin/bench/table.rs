//! The tables: a line for each family, and all rows. A column in which nothing was measured is left out.

use crate::columns::{measured_ones, Tells, FAMILIES, ROWS};
use crate::contenders::{Call, CALLS};
use crate::guess::guess;
use crate::measured::{Measured, WEEK};
use crate::rows::{Kind, Row};
use crate::search::Searched;
use crate::words::digits;

/// A figure's cell, empty without one.
fn cell(figure: Option<f64>) -> String {
    figure.map_or(String::new(), digits)
}

/// A line of a table.
pub fn line(cells: impl IntoIterator<Item = String>) -> String {
    let cells: String = cells.into_iter().map(|cell| format!(" {cell} |")).collect();
    format!("|{cells}\n")
}

/// The first lines of a table.
pub fn head(names: impl IntoIterator<Item = String>) -> String {
    let names: Vec<String> = names.into_iter().collect();
    let rule = "---|".repeat(names.len());
    format!("{}|{rule}\n", line(names))
}

/// A figure of a family at a week without bounds and one with them, as far as there are such.
fn pair(tells: Tells, measured: &Measured, call: Call, kind: Kind) -> String {
    let figure = |bounded| {
        let rows = measured.rows(|row| (row.kind, row.bounded, row.frames) == (kind, bounded, WEEK));
        tells.figure(measured, call, &rows)
    };
    let figures = [false, true].into_iter().filter_map(figure);
    let texts: Vec<String> = figures.map(digits).collect();
    texts.join(", ")
}

/// The names of a call's columns; the first one names the call.
fn names(call: Call, columns: &[Tells], measured: &Measured) -> Vec<String> {
    let mut names: Vec<String> = columns.iter().map(|tells| tells.head(measured)).collect();
    if let Some(first) = names.first_mut() {
        *first = format!("{}: {first}", call.name());
    }
    names
}

/// The table of families: plan and needed capacity of a week over all capacities, without bounds and with them.
pub fn families(measured: &Measured) -> String {
    let calls = CALLS.map(|call| (call, measured_ones(&FAMILIES, measured, call)));
    let of_call = |(call, columns): &(Call, Vec<Tells>)| names(*call, columns, measured);
    let names = ["harvest".to_string()]
        .into_iter()
        .chain(calls.iter().flat_map(of_call));
    let mut text = head(names);
    for kind in Kind::all() {
        let mut cells = vec![kind.name()];
        for (call, columns) in &calls {
            cells.extend(columns.iter().map(|&tells| pair(tells, measured, *call, kind)));
        }
        text += &line(cells);
    }
    text
}

/// A column that is not a figure of the library: its name, and its cell in a row.
type More<'a> = (&'a str, &'a dyn Fn(&Row) -> String);

/// The table of a call in all rows.
fn of_call(call: Call, measured: &Measured, more: &[More]) -> String {
    let columns = measured_ones(&ROWS, measured, call);
    let names = ["harvest", "capacity", "frames"].map(String::from).into_iter();
    let names = names.chain(columns.iter().map(|tells| tells.head(measured)));
    let names = names.chain(more.iter().map(|(name, _)| name.to_string()));
    let of_row = |row: &Row| {
        let first = [row.family(), row.size.name().to_string(), row.frames.to_string()];
        let figures = columns.iter().map(|tells| cell(tells.figure(measured, call, &[*row])));
        let last = more.iter().map(|(_, cell)| cell(row));
        line(first.into_iter().chain(figures).chain(last))
    };
    let lines: String = measured.rows.iter().map(of_row).collect();
    format!("## {}\n\n{}{lines}", call.title(), head(names))
}

/// All rows; where the search was measured, its times stand behind the guesses that were certified.
pub fn whole(measured: &Measured, searched: Option<&Searched>) -> String {
    let micros = |row: &Row| cell(searched.and_then(|searched| searched.micros(row)));
    let more: [More; 2] = [("guess", &guess), ("searched us", &micros)];
    let more = if searched.is_some() { &more[..] } else { &[] };
    let plan = of_call(Call::Plan, measured, more);
    format!("{plan}\n{}", of_call(Call::Needed, measured, &[]))
}
