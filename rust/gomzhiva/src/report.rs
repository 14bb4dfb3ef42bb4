//! Tables for people and for spreadsheets.

use std::fmt::{Display, Write};
use std::iter::once;

/// A cell of a table: a number or a time, or none.
pub type Cell = Option<String>;

/// A column: its name, and a cell for each row.
pub type Column = (&'static str, Vec<Cell>);

/// Columns with their names, one cell of each for each row.
pub struct Table {
    pub columns: Vec<Column>,
}

impl Table {
    fn rows(&self) -> usize {
        self.columns[0].1.len()
    }

    /// Aligned to the right, two blanks between columns; a cell with nothing has a dash.
    pub fn aligned(&self) -> String {
        let lines = self.lines("-");
        let width = |column: usize| lines.iter().map(|cells| cells[column].len()).max().unwrap_or(0);
        let widths: Vec<usize> = (0..self.columns.len()).map(width).collect();
        let mut text = String::new();
        for cells in &lines {
            let cells: Vec<String> = cells
                .iter()
                .zip(&widths)
                .map(|(cell, width)| format!("{cell:>width$}"))
                .collect();
            let _ = writeln!(text, "{}", cells.join("  "));
        }
        text
    }

    /// With commas, and a line of names; a cell with nothing is empty.
    pub fn csv(&self) -> String {
        let lines = self.lines("");
        lines.iter().map(|cells| cells.join(",") + "\n").collect()
    }

    /// The names, then the cells of each row, with this for those with nothing.
    fn lines(&self, none: &str) -> Vec<Vec<String>> {
        let names = self.columns.iter().map(|(name, _)| name.to_string()).collect();
        let cell = |cell: &Cell| cell.clone().unwrap_or_else(|| none.to_string());
        let row = |row: usize| self.columns.iter().map(|(_, list)| cell(&list[row])).collect();
        once(names).chain((0..self.rows()).map(row)).collect()
    }
}

/// A list as a table's column.
pub fn column<N: Display>(list: &[N]) -> Vec<Cell> {
    list.iter().map(|number| Some(number.to_string())).collect()
}

/// The sum of a list.
pub fn sum(list: &[u32]) -> u64 {
    list.iter().map(|&n| u64::from(n)).sum()
}

/// What is lost in all, in words.
pub fn lost(losses: &[u32]) -> String {
    match sum(losses) {
        0 => "0 Wh lost".into(),
        lost => format!("{lost} Wh lost that the full battery could not take"),
    }
}

/// The mean of a list, to a tenth.
pub fn mean(list: &[u32]) -> String {
    format!("{:.1}", sum(list) as f64 / list.len().max(1) as f64)
}

/// The number and its noun.
pub fn counted(number: usize, noun: &str) -> String {
    let end = if number == 1 { "" } else { "s" };
    format!("{number} {noun}{end}")
}

/// The charge at the end against the one that was asked for, in words.
pub fn ending(last: i64, end: u32) -> String {
    if last < i64::from(end) {
        format!("the charge ends at {last} Wh, below the end charge of {end} Wh")
    } else {
        format!("the charge ends at {last} Wh, and {end} Wh were asked for")
    }
}

/// The sentence with a capital letter.
pub fn capitalised(sentence: &str) -> String {
    let mut characters = sentence.chars();
    characters
        .next()
        .map_or(String::new(), |first| first.to_uppercase().chain(characters).collect())
}

#[cfg(test)]
mod tests {
    use super::*;

    #[test]
    fn tables_are_aligned_and_csv_is_plain() {
        let table = Table {
            columns: vec![
                ("frame", column(&[1, 2])),
                ("charge", column(&[-10_000_000_i64, 3])),
                ("most", vec![None, Some("5".to_string())]),
            ],
        };
        assert_eq!(
            table.aligned(),
            "frame     charge  most\n    1  -10000000     -\n    2          3     5\n"
        );
        assert_eq!(table.csv(), "frame,charge,most\n1,-10000000,\n2,3,5\n");
    }

    #[test]
    fn sums_and_means() {
        assert_eq!(sum(&[u32::MAX, 1]), 1 << 32);
        assert_eq!(mean(&[1, 2, 2]), "1.7");
        assert_eq!(mean(&[]), "0.0");
        assert_eq!(lost(&[0, 0]), "0 Wh lost");
        assert_eq!(lost(&[3, 4]), "7 Wh lost that the full battery could not take");
        assert_eq!(counted(1, "frame") + &counted(0, "frame"), "1 frame0 frames");
    }
}
