//! Reward tables that qualify, enumerated by their steps.

/// A reward table: a whole number for each energy from 0 on.
#[derive(Clone, Debug, PartialEq, Eq)]
pub struct Table(pub Vec<i64>);

impl Table {
    /// The table that begins with a number and goes up by the steps.
    pub fn from_steps(first: i64, steps: &[i64]) -> Table {
        let mut numbers = vec![first];
        for step in steps {
            numbers.push(numbers[numbers.len() - 1] + step);
        }
        Table(numbers)
    }

    /// Each step up is at least 0 and no greater than the step before it.
    pub fn qualifies(&self) -> bool {
        let steps: Vec<i64> = self.0.windows(2).map(|w| w[1] - w[0]).collect();
        steps.iter().all(|&s| s >= 0) && steps.windows(2).all(|w| w[1] <= w[0])
    }

    /// What an assignment earns.
    pub fn earned(&self, budgets: &[u32]) -> i64 {
        budgets.iter().map(|&b| self.0[b as usize]).sum()
    }
}

/// Every qualifying table over energies 0 to `most` that begins with `first` and whose first step is at most `step`.
pub fn all_tables(most: usize, first: i64, step: i64) -> Vec<Table> {
    let mut all = Vec::new();
    let mut steps = Vec::new();
    extend(most, first, step, &mut steps, &mut all);
    all
}

/// Adds every table whose steps begin with the given ones and go on with steps of at most `step`.
fn extend(most: usize, first: i64, step: i64, steps: &mut Vec<i64>, all: &mut Vec<Table>) {
    if steps.len() == most {
        all.push(Table::from_steps(first, steps));
        return;
    }
    for next in 0..=step {
        steps.push(next);
        extend(most, first, next, steps, all);
        steps.pop();
    }
}

/// The table that counts the units of a budget up to a level.
pub fn level_table(most: usize, level: usize) -> Table {
    Table((0..=most).map(|n| n.min(level) as i64).collect())
}
