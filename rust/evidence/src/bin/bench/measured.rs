//! What a run measured: columns of figures, and what sums of them come to.

use crate::contenders::{Call, Contender};
use crate::rows::Row;
use evidence::families::FRAMES;

/// The numbers of frames from which growth is measured and to which it leads.
pub const HALF_WEEK: usize = FRAMES[1];
pub const WEEK: usize = FRAMES[2];
pub const BOTH: [usize; 2] = [HALF_WEEK, WEEK];

/// The most that anything is to grow by.
pub const GROWTH: f64 = 2.6;

/// What is measured of a call.
#[derive(Clone, Copy, PartialEq)]
pub enum Unit {
    Instructions,
    /// Microseconds where the request is called again and again.
    Warm,
    /// Microseconds where another request was called before.
    Cold,
}

/// All of them, in the order of the tables, and those of time.
pub const UNITS: [Unit; 3] = [Unit::Instructions, Unit::Warm, Unit::Cold];
pub const TIMES: [Unit; 2] = [Unit::Warm, Unit::Cold];

impl Unit {
    /// Its name in tables.
    pub fn name(self) -> &'static str {
        match self {
            Unit::Instructions => "instructions",
            Unit::Warm => "warm",
            Unit::Cold => "cold",
        }
    }
}

/// A figure for every row that a contender answers: the mean over the row's requests.
pub struct Column {
    pub unit: Unit,
    pub call: Call,
    pub contender: Contender,
    pub figures: Vec<Option<f64>>,
}

/// The figures of all rows, and the name of the build beside.
pub struct Measured {
    pub rows: Vec<Row>,
    pub columns: Vec<Column>,
    pub beside: Option<String>,
}

impl Measured {
    /// The rows that are chosen.
    pub fn rows(&self, is_chosen: impl Fn(&Row) -> bool) -> Vec<Row> {
        self.rows.iter().copied().filter(is_chosen).collect()
    }

    /// A contender's sum over some rows, if there are any and each was measured.
    pub fn sum(&self, unit: Unit, call: Call, contender: Contender, rows: &[Row]) -> Option<f64> {
        rows.first()?;
        let is_it = |column: &&Column| (column.unit, column.call, column.contender) == (unit, call, contender);
        let column = self.columns.iter().find(is_it)?;
        let figure = |row| column.figures[self.rows.iter().position(|other| other == row)?];
        rows.iter().map(figure).sum()
    }

    /// The library's sum over some rows.
    pub fn library(&self, unit: Unit, call: Call, rows: &[Row]) -> Option<f64> {
        self.sum(unit, call, Contender::Library, rows)
    }

    /// The library's sum over some rows against another contender's.
    pub fn ratio(&self, unit: Unit, call: Call, other: Contender, rows: &[Row]) -> Option<f64> {
        Some(self.library(unit, call, rows)? / self.sum(unit, call, other, rows)?)
    }

    /// The name of a contender in tables.
    pub fn name(&self, contender: Contender) -> String {
        match contender {
            Contender::Library => "library".to_string(),
            Contender::Beside => self.beside.clone().unwrap_or_default(),
            Contender::Twin => "twin".to_string(),
            Contender::Source => "source".to_string(),
        }
    }

    /// How the library's instructions grow to some rows of a week from the same rows of half a week.
    pub fn growth(&self, call: Call, rows: &[Row]) -> Option<f64> {
        if rows.iter().any(|row| row.frames != WEEK) {
            return None;
        }
        let half = |&row: &Row| Row {
            frames: HALF_WEEK,
            ..row
        };
        let halves: Vec<Row> = rows.iter().map(half).collect();
        let instructions = |rows: &[Row]| self.library(Unit::Instructions, call, rows);
        Some(instructions(rows)? / instructions(&halves)?)
    }
}
