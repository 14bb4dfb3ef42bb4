//! The tracer: charges of any budgets, below zero included, what each frame loses, and the verdict.

use super::charge::walk;
use energy::{Figures, Verdict};

/// Writes the charge after each frame and what it loses, and judges the budgets. All lists are equally long.
pub fn trace(figures: Figures, harvest: &[u32], budgets: &[u32], charges: &mut [i64], losses: &mut [u32]) -> Verdict {
    let places = charges.iter_mut().zip(losses);
    for ((charge, loss), end) in places.zip(walk(figures.into(), harvest, budgets)) {
        *charge = end.charge;
        *loss = u32::try_from(end.lost).expect("no more than the harvest");
    }
    verdict(figures, charges)
}

/// The earliest frame below zero among all but the last, else whether the end charge is met.
fn verdict(figures: Figures, charges: &[i64]) -> Verdict {
    let (&last, before) = charges.split_last().expect("a request has at least one frame");
    match before.iter().position(|&charge| charge < 0) {
        Some(place) => Verdict::BelowZero {
            frame: place as u32 + 1,
        },
        None if last < i64::from(figures.end) => Verdict::EndTooLow,
        None => Verdict::Feasible,
    }
}
