//! Tracing in one pass over the lists: the charge after each frame and what the frame loses.

use energy::{Figures, Verdict};

/// Writes the charge after each frame and what it loses. All lists are equally long.
pub fn fill(figures: Figures, harvest: &[u32], budgets: &[u32], charges: &mut [i64], losses: &mut [u32]) {
    let capacity = i64::from(figures.capacity);
    let mut charge = i64::from(figures.start);
    let frames = harvest.iter().zip(budgets).zip(charges).zip(losses);
    for (((&h, &b), after), loss) in frames {
        let left = charge + i64::from(h) - i64::from(b);
        charge = left.min(capacity);
        *after = charge;
        *loss = (left - charge) as u32;
    }
}

/// The earliest frame below zero among all but the last, else whether the end charge is met.
pub fn judge(figures: Figures, charges: &[i64]) -> Verdict {
    let last = charges.len() - 1;
    match charges[..last].iter().position(|&charge| charge < 0) {
        Some(place) => Verdict::BelowZero {
            frame: place as u32 + 1,
        },
        None if i64::from(figures.end) <= charges[last] => Verdict::Feasible,
        None => Verdict::EndTooLow,
    }
}
