//! The aims against the build beside: sums over the families, without bounds and with them, in instructions. The sums
//! in time have no aim: where a build's code lies in memory moves them by some hundredths and single rows by up to a
//! tenth, as the same library beside itself shows.

use crate::contenders::{Call, Contender, CALLS};
use crate::measured::{Measured, Unit, HALF_WEEK, UNITS, WEEK};
use crate::rows::{Figure, Row};
use crate::words::{verdict, worst};

/// Rows that are summed, and the most that their sum may be of the other build's in instructions, if there is an aim.
struct Group {
    name: &'static str,
    limit: Option<f64>,
    holds: fn(&Row) -> bool,
}

const GROUPS: [Group; 3] = [
    Group {
        name: "without bounds",
        limit: Some(1.10),
        holds: |row| row.is_summed() && !row.bounded,
    },
    Group {
        name: "with bounds",
        limit: Some(1.00),
        holds: |row| row.is_summed() && row.bounded,
    },
    Group {
        name: "with nested bounds",
        limit: None,
        holds: |row| !row.is_summed(),
    },
];

/// The numbers of frames whose rows are summed.
const SUMS: [&[usize]; 3] = [&[HALF_WEEK], &[WEEK], &[HALF_WEEK, WEEK]];

impl Group {
    /// Its sums in one unit, if they were measured.
    fn sums(&self, measured: &Measured, unit: Unit, call: Call) -> Option<Vec<f64>> {
        let sum = |frames: &&[usize]| {
            let rows = measured.rows(|row| (self.holds)(row) && frames.contains(&row.frames));
            measured.ratio(unit, call, Contender::Beside, &rows)
        };
        SUMS.iter().map(sum).collect()
    }

    /// Its sums in one unit; those of instructions with a verdict where there is an aim.
    fn told(&self, measured: &Measured, unit: Unit, call: Call) -> Option<String> {
        let sums = self.sums(measured, unit, call)?;
        let texts: Vec<String> = sums.iter().map(|sum| format!("{sum:.3}")).collect();
        let is_met = |limit: f64| sums.iter().all(|sum| *sum <= limit);
        let met = match self.limit {
            Some(limit) if unit == Unit::Instructions => format!(" (at most {limit:.2}: {})", verdict(is_met(limit))),
            _ => String::new(),
        };
        Some(format!("{} {}{met}", unit.name(), texts.join(", ")))
    }

    /// Its row of half a week or a week with the greatest ratio in one unit.
    fn worst(&self, measured: &Measured, unit: Unit, call: Call) -> Option<String> {
        let rows = measured.rows(|row| (self.holds)(row) && HALF_WEEK <= row.frames);
        let ratio = |row: Row| Some((row, measured.ratio(unit, call, Contender::Beside, &[row])?));
        let ratios: Option<Vec<Figure>> = rows.into_iter().map(ratio).collect();
        Some(format!("{} {}", unit.name(), worst(&ratios?)))
    }

    /// Its sums and worst rows of a call in every unit that was measured.
    fn line(&self, measured: &Measured, call: Call) -> Option<String> {
        let sums: Vec<String> = UNITS
            .iter()
            .filter_map(|&unit| self.told(measured, unit, call))
            .collect();
        let worst: Vec<String> = UNITS
            .iter()
            .filter_map(|&unit| self.worst(measured, unit, call))
            .collect();
        sums.first()?;
        let (name, sums, worst) = (call.name(), sums.join("; "), worst.join("; "));
        Some(format!("  - {name} {}: {sums}; worst rows: {worst}\n", self.name))
    }
}

/// The sums of both calls; nothing where there is no build beside.
pub fn report(measured: &Measured) -> String {
    let of_call = |call: Call| GROUPS.iter().filter_map(move |group| group.line(measured, call));
    let lines: String = CALLS.into_iter().flat_map(of_call).collect();
    if lines.is_empty() {
        return lines;
    }
    let beside = measured.name(Contender::Beside);
    format!("- sums over the families against {beside} at {HALF_WEEK} frames, at {WEEK}, and at both\n{lines}")
}
