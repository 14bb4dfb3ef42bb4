//! A house curve as a linear program for the solver glpsol, whose optimum must be the plan's worth.

use crate::reference::curves::Curve;
use crate::reference::limits::NO_UPPER_END;
use energy::{Figures, Frames};
use std::fmt::Write;
use std::io;
use std::process::{Command, Stdio};

/// The rows that hold the sum of a frame's bands within its bounds.
fn bound_rows(k: usize, sum: &str, least: u32, most: u32) -> String {
    let mut rows = String::new();
    if least > 0 {
        let _ = writeln!(rows, " l{k}:{sum} >= {least}");
    }
    if most != NO_UPPER_END {
        let _ = writeln!(rows, " m{k}:{sum} <= {most}");
    }
    rows
}

/// The program in the CPLEX LP format: a budget for each band of the curve, a charge and a loss for each frame.
pub fn program(figures: Figures, frames: Frames, curve: &Curve) -> String {
    let mut goal = String::from("Maximize\n worth:\n");
    let mut rules = String::from("Subject to\n");
    let mut bounds = String::from("Bounds\n");
    let count = frames.harvest.len();
    for (i, &h) in frames.harvest.iter().enumerate() {
        let k = i + 1;
        let (before, have) = match i {
            0 => (String::new(), u64::from(figures.start) + u64::from(h)),
            _ => (format!(" - y{i}"), h.into()),
        };
        let mut sum = String::new();
        let mut below = 0;
        for (band, gain) in curve.gains.iter().enumerate() {
            let _ = writeln!(goal, "  + {gain} b{k}_{band}");
            let _ = write!(sum, " + b{k}_{band}");
            if let Some(edge) = curve.edges.get(band) {
                let _ = writeln!(bounds, " 0 <= b{k}_{band} <= {}", edge - below);
                below = *edge;
            }
        }
        let _ = writeln!(rules, " f{k}: y{k}{before} + w{k}{sum} = {have}");
        rules += &bound_rows(k, &sum, frames.least[i], frames.most[i]);
        let least = if k == count { figures.end } else { 0 };
        let _ = writeln!(bounds, " {least} <= y{k} <= {}", figures.capacity);
    }
    format!("{goal}{rules}{bounds}End\n")
}

/// The solver's optimum; nothing if glpsol is not installed or its answer cannot be read.
pub fn optimum(figures: Figures, frames: Frames, curve: &Curve) -> io::Result<Option<f64>> {
    let known = Command::new("glpsol")
        .arg("--version")
        .stdout(Stdio::null())
        .stderr(Stdio::null())
        .status();
    if known.is_err() {
        return Ok(None);
    }
    let directory = std::env::temp_dir().join(format!("energy-linear-{}", std::process::id()));
    std::fs::create_dir_all(&directory)?;
    let (input, output) = (directory.join("plan.lp"), directory.join("plan.out"));
    std::fs::write(&input, program(figures, frames, curve))?;
    let status = Command::new("glpsol")
        .arg("--lp")
        .arg(&input)
        .arg("-o")
        .arg(&output)
        .stdout(Stdio::null())
        .status()?;
    let report = if status.success() {
        std::fs::read_to_string(&output)?
    } else {
        String::new()
    };
    std::fs::remove_dir_all(&directory)?;
    Ok(objective(&report))
}

/// The number of a report's line `Objective:  worth = 320 (MAXimum)`.
fn objective(report: &str) -> Option<f64> {
    let line = report.lines().find(|line| line.starts_with("Objective:"))?;
    line.split('=').nth(1)?.split_whitespace().next()?.parse().ok()
}

#[cfg(test)]
mod tests {
    use super::*;
    use crate::reference::curves::HOUSE_CURVES;

    #[test]
    fn a_report_is_read() {
        assert_eq!(
            objective("Status:     OPTIMAL\nObjective:  worth = 320 (MAXimum)\n"),
            Some(320.0)
        );
        assert_eq!(objective(""), None);
    }

    #[test]
    fn a_small_program_is_written() {
        let figures = Figures {
            capacity: 5,
            start: 2,
            end: 1,
        };
        let frames = Frames {
            harvest: &[6, 4],
            least: &[0, 2],
            most: &[NO_UPPER_END, 3],
        };
        let text = program(figures, frames, &HOUSE_CURVES[0]);
        assert!(text.contains(" f1: y1 + w1 + b1_0 + b1_1 + b1_2 + b1_3 + b1_4 = 8\n"));
        assert!(text.contains(" f2: y2 - y1 + w2 + b2_0 + b2_1 + b2_2 + b2_3 + b2_4 = 4\n"));
        assert!(text.contains(" l2: + b2_0 + b2_1 + b2_2 + b2_3 + b2_4 >= 2\n"));
        assert!(text.contains(" m2: + b2_0 + b2_1 + b2_2 + b2_3 + b2_4 <= 3\n"));
        assert!(!text.contains(" l1:") && !text.contains(" m1:"));
        assert!(text.contains(" 0 <= b2_1 <= 200\n"));
        assert!(text.contains(" 0 <= y1 <= 5\n 0 <= b2_0 <= 100\n"));
        assert!(text.contains(" 1 <= y2 <= 5\nEnd\n"));
    }
}
