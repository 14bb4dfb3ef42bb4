//! The plan and the needed capacity by a search through all assignments, straight from document 01's definitions.

use super::charge::{frame, frames_from, unlimited, whole, within, Store};
use super::tables::Table;
use energy::{Figures, Frames};

/// All feasible assignments of a small request; the capacity may exceed its limit.
pub fn feasible_assignments(store: Store, frames: Frames) -> Vec<Vec<u32>> {
    let mut all = Vec::new();
    extend(store, whole(store.start), frames, &mut Vec::new(), &mut all);
    all
}

/// Adds every feasible assignment that begins with the given budgets, which lead to the given charge; `frames` are those
/// that are left.
fn extend(store: Store, charge: i64, frames: Frames, budgets: &mut Vec<u32>, all: &mut Vec<Vec<u32>>) {
    let first = match frames.harvest.first() {
        Some(&first) => first,
        None => {
            if charge >= whole(store.end) {
                all.push(budgets.clone());
            }
            return;
        }
    };
    for budget in 0.. {
        let charge = frame(store.capacity, charge, first, budget).charge;
        if charge < 0 {
            return;
        }
        if within(frames.least[0], frames.most[0], budget) {
            budgets.push(budget);
            extend(store, charge, frames_from(frames, 1), budgets, all);
            budgets.pop();
        }
    }
}

/// The best feasible reward by each table.
pub fn best_rewards(all: &[Vec<u32>], tables: &[Table]) -> Vec<i64> {
    let best = |table: &Table| all.iter().map(|budgets| table.earned(budgets)).max();
    tables
        .iter()
        .map(|table| best(table).expect("something is feasible"))
        .collect()
}

/// The plan: of the assignments best for every table given, the one that takes more at the first difference.
/// Nothing, if no assignment is best for all of them.
pub fn plan(all: &[Vec<u32>], tables: &[Table]) -> Option<Vec<u32>> {
    let best = best_rewards(all, tables);
    all.iter()
        .filter(|budgets| {
            tables
                .iter()
                .zip(&best)
                .all(|(table, &most)| table.earned(budgets) == most)
        })
        .max()
        .cloned()
}

/// The needed capacity by the tables given: the least, at least start and end, with which something is feasible and whose
/// best rewards are those of unlimited storage.
pub fn needed(store: Store, frames: Frames, tables: &[Table]) -> u64 {
    let most = unlimited(store, frames.harvest).capacity;
    let assignments = |capacity| feasible_assignments(Store { capacity, ..store }, frames);
    let wanted = best_rewards(&assignments(most), tables);
    let serves = |all: Vec<Vec<u32>>| !all.is_empty() && best_rewards(&all, tables) == wanted;
    (store.start.max(store.end)..=most)
        .find(|&capacity| serves(assignments(capacity)))
        .expect("unlimited storage serves as unlimited storage")
}

/// Start charge plus all harvest: the last energy of a reward table.
pub fn most_energy(figures: Figures, harvest: &[u32]) -> usize {
    figures.start as usize + harvest.iter().map(|&h| h as usize).sum::<usize>()
}
