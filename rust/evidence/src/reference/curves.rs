//! The three house curves that grade a plan in reports.

/// A house curve: unit number n, from 1, earns the first gain if n is at most the first edge, and so on.
pub struct Curve {
    pub edges: [u64; 4],
    pub gains: [u64; 5],
}

/// Document 01's table.
pub const HOUSE_CURVES: [Curve; 3] = [
    Curve {
        edges: [100, 300, 700, 1500],
        gains: [16, 8, 4, 2, 1],
    },
    Curve {
        edges: [50, 200, 800, 2000],
        gains: [24, 12, 3, 1, 0],
    },
    Curve {
        edges: [1000, 2000, 4000, 8000],
        gains: [5, 4, 3, 2, 1],
    },
];

impl Curve {
    /// What unit number n earns.
    pub fn gain(&self, unit: u64) -> u64 {
        let band = self.edges.iter().take_while(|&&edge| unit > edge).count();
        self.gains[band]
    }

    /// What a budget earns: the gains of its units, band by band.
    pub fn worth(&self, budget: u32) -> u64 {
        let budget = u64::from(budget);
        let mut worth = 0;
        let mut below = 0;
        for (band, &gain) in self.gains.iter().enumerate() {
            let edge = self.edges.get(band).copied().unwrap_or(u64::MAX);
            let reached = budget.min(edge);
            worth += gain * (reached - below);
            below = reached;
        }
        worth
    }
}

/// The sums of the three curves over the budgets.
pub fn grade(budgets: &[u32]) -> [u64; 3] {
    HOUSE_CURVES.map(|curve| budgets.iter().map(|&b| curve.worth(b)).sum())
}

#[cfg(test)]
mod tests {
    use super::*;

    #[test]
    fn worth_is_the_sum_of_the_gains() {
        for curve in &HOUSE_CURVES {
            let mut sum = 0;
            for unit in 1..=9_000 {
                sum += curve.gain(unit);
                assert_eq!(curve.worth(unit as u32), sum);
            }
        }
    }
}
