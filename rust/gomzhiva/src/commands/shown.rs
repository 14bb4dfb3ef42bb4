//! What a command shows of budgets: a table with words, a table for a spreadsheet, or a picture, as the arguments ask.

use super::write;
use crate::cli::ReportArguments;
use crate::failure::Failure;
use crate::files::{print, Place};
use crate::report::Table;
use crate::streams::tell;

/// A table, the picture of the same, and what stands around them.
pub struct Shown<'a> {
    pub table: Table,
    pub picture: &'a dyn Fn() -> String,
    /// What closes the table.
    pub words: &'a str,
    /// What is told on standard error where the words have no place.
    pub warnings: &'a [String],
    /// What it was made of, which no picture replaces.
    pub inputs: &'a [&'a Place],
}

impl Shown<'_> {
    pub fn show(&self, report: &ReportArguments) -> Result<(), Failure> {
        let only_picture = report.draws_on_standard_output();
        if only_picture && report.table.csv {
            let message = "gomzhiva: --csv and --chart - cannot both be standard output";
            return Err(Failure::Fault(message.into()));
        }
        if let Some(place) = &report.chart {
            write(place, self.inputs, (self.picture)().as_bytes())?;
        }
        if report.table.csv {
            print(&self.table.csv())?;
        } else if !only_picture {
            return print(&format!("{}\n{}\n", self.table.aligned(), self.words));
        }
        warn(self.warnings);
        Ok(())
    }
}

/// Tells what standard output has no place for.
pub fn warn(warnings: &[String]) {
    for warning in warnings {
        tell(format!("gomzhiva: {warning}"));
    }
}
