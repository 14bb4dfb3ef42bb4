//! The source's Algorithms 1 and 2 in floating point, as its paper gives them. They yield fractions.

/// A stretch of equal budgets of Algorithm 1: its frames begin after the last stretch and end at `end`.
#[derive(Clone, Copy, Debug)]
pub struct Stretch {
    pub end: usize,
    pub budget: f64,
}

/// Algorithm 1, Greedy-Incremental: unlimited storage. Gives the stretches in order.
pub fn stretches(start: f64, end: f64, harvest: &[f64]) -> Vec<Stretch> {
    let frames = harvest.len();
    let mut all = Vec::new();
    let (mut done, mut charge) = (0, start);
    while done < frames {
        let mut least = Stretch {
            end: frames,
            budget: f64::INFINITY,
        };
        let mut sum = charge;
        for j in done + 1..=frames {
            sum += harvest[j - 1];
            let have = if j == frames { sum - end } else { sum };
            let mean = have / (j - done) as f64;
            if mean <= least.budget {
                least = Stretch { end: j, budget: mean };
            }
        }
        all.push(least);
        done = least.end;
        charge = 0.0;
    }
    all
}

/// Algorithm 1's budgets.
pub fn greedy_incremental(start: f64, end: f64, harvest: &[f64], budgets: &mut [f64]) {
    let mut done = 0;
    for stretch in stretches(start, end, harvest) {
        budgets[done..stretch.end].fill(stretch.budget);
        done = stretch.end;
    }
}

/// Algorithm 2, Recursive-Decomposition: limited storage.
pub fn recursive_decomposition(capacity: f64, start: f64, end: f64, harvest: &[f64], budgets: &mut [f64]) {
    let mut done = 0;
    for stretch in stretches(start, end, harvest) {
        let before = if done == 0 { start } else { 0.0 };
        let after = if stretch.end == harvest.len() { end } else { 0.0 };
        subsegment(
            capacity,
            before,
            after,
            &harvest[done..stretch.end],
            &mut budgets[done..stretch.end],
        );
        done = stretch.end;
    }
}

/// The source's procedure SUBSEG over the frames of a part, with the charge before it and after it.
fn subsegment(capacity: f64, before: f64, after: f64, harvest: &[f64], budgets: &mut [f64]) {
    let frames = harvest.len();
    let sum: f64 = harvest.iter().sum();
    let mean = (before - after + sum) / frames as f64;
    if frames == 1 {
        budgets[0] = mean;
        return;
    }
    let (full_at, full) = least_mean_from_full(capacity - after, harvest);
    let (empty_at, empty) = least_mean_to_empty(before, harvest);
    let (cut, middle) = if full < mean {
        (full_at, capacity)
    } else if empty < mean {
        (empty_at, 0.0)
    } else {
        budgets.fill(mean);
        return;
    };
    let (left, right) = budgets.split_at_mut(cut);
    subsegment(capacity, before, middle, &harvest[..cut], left);
    subsegment(capacity, middle, after, &harvest[cut..], right);
}

/// The frame from whose full store the mean to the part's end is least, and that mean.
fn least_mean_from_full(have: f64, harvest: &[f64]) -> (usize, f64) {
    let mut least = (0, f64::INFINITY);
    let mut sum = have;
    for j in (1..harvest.len()).rev() {
        sum += harvest[j];
        let mean = sum / (harvest.len() - j) as f64;
        if mean < least.1 {
            least = (j, mean);
        }
    }
    least
}

/// The frame up to which the mean that empties the store is least, and that mean.
fn least_mean_to_empty(before: f64, harvest: &[f64]) -> (usize, f64) {
    let mut least = (0, f64::INFINITY);
    let mut sum = before;
    for j in 1..harvest.len() {
        sum += harvest[j - 1];
        let mean = sum / j as f64;
        if mean < least.1 {
            least = (j, mean);
        }
    }
    least
}

/// Section 6's capacity: the greatest charge under Algorithm 1, the start counted too.
pub fn needed(start: f64, end: f64, harvest: &[f64]) -> f64 {
    let mut charge = start;
    let mut highest = start;
    let mut done = 0;
    for stretch in stretches(start, end, harvest) {
        for h in &harvest[done..stretch.end] {
            charge += h - stretch.budget;
            highest = highest.max(charge);
        }
        done = stretch.end;
    }
    highest
}

#[cfg(test)]
mod tests {
    use super::*;

    const HARVEST: [f64; 6] = [6.0, 4.0, 0.0, 0.0, 5.0, 5.0];

    #[test]
    fn the_papers_example_without_limit() {
        let mut budgets = [0.0; 6];
        greedy_incremental(2.0, 2.0, &HARVEST, &mut budgets);
        assert_eq!(budgets, [3.0, 3.0, 3.0, 3.0, 4.0, 4.0]);
        assert_eq!(needed(2.0, 2.0, &HARVEST), 6.0);
    }

    #[test]
    fn the_papers_example_with_capacity_5() {
        let mut budgets = [0.0; 6];
        recursive_decomposition(5.0, 2.0, 2.0, &HARVEST, &mut budgets);
        assert_eq!(budgets, [3.5, 3.5, 2.5, 2.5, 4.0, 4.0]);
    }
}
