//! The columns of the tables, and what they tell of some rows.

use crate::contenders::Call;
use crate::contenders::Contender::{self, Beside, Source, Twin};
use crate::measured::Measured;
use crate::measured::Unit::{self, Cold, Instructions, Warm};
use crate::rows::Row;
use Tells::{Growth, Mean, Ratio};

/// What a column tells of some rows.
#[derive(Clone, Copy)]
pub enum Tells {
    /// The library's mean.
    Mean(Unit),
    /// The library's sum against another contender's.
    Ratio(Unit, Contender),
    Growth,
}

/// The columns of the table of families.
pub const FAMILIES: [Tells; 7] = [
    Mean(Warm),
    Mean(Cold),
    Ratio(Instructions, Beside),
    Ratio(Warm, Source),
    Ratio(Cold, Source),
    Ratio(Warm, Twin),
    Growth,
];

/// The columns of the table of all rows.
pub const ROWS: [Tells; 11] = [
    Mean(Instructions),
    Ratio(Instructions, Beside),
    Growth,
    Mean(Warm),
    Mean(Cold),
    Ratio(Warm, Beside),
    Ratio(Cold, Beside),
    Ratio(Warm, Source),
    Ratio(Cold, Source),
    Ratio(Warm, Twin),
    Ratio(Cold, Twin),
];

impl Tells {
    /// The column's name.
    pub fn head(self, measured: &Measured) -> String {
        match self {
            Mean(Instructions) => "instructions".to_string(),
            Mean(unit) => format!("{} us", unit.name()),
            Ratio(unit, other) => format!("{} / {}", unit.name(), measured.name(other)),
            Growth => "growth".to_string(),
        }
    }

    /// Its figure for a call in some rows.
    pub fn figure(self, measured: &Measured, call: Call, rows: &[Row]) -> Option<f64> {
        match self {
            Mean(unit) => Some(measured.library(unit, call, rows)? / rows.len() as f64),
            Ratio(unit, other) => measured.ratio(unit, call, other, rows),
            Growth => measured.growth(call, rows),
        }
    }

    /// Whether it was measured in any row.
    fn is_measured(self, measured: &Measured, call: Call) -> bool {
        measured
            .rows
            .iter()
            .any(|&row| self.figure(measured, call, &[row]).is_some())
    }
}

/// Those columns of a table that were measured.
pub fn measured_ones(all: &[Tells], measured: &Measured, call: Call) -> Vec<Tells> {
    let is_measured = |tells: &Tells| tells.is_measured(measured, call);
    all.iter().copied().filter(is_measured).collect()
}
