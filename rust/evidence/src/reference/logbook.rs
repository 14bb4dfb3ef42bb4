//! The logbook of demand 3: fed each recording's typed figures and nothing from the shift's record.

use super::charge::frame;
use super::plan::by_filling;
use super::refusals::{self, Checked};
use super::shift::{balances, entry, joined, lengths, rest, terms};
use energy::{Figures, Frames, Present, Refusal, Rest, Shift, Totals};

/// The request that the shift was started from, a count, a charge and the totals; and the history they sum up.
#[derive(Clone, Debug)]
pub struct Logbook {
    figures: Figures,
    frames: usize,
    count: usize,
    charge: u32,
    totals: Totals,
    /// The recordings that were not refused.
    history: Vec<Totals>,
}

impl Logbook {
    /// The logbook at the start of a shift from a valid, reachable request.
    pub fn open(figures: Figures, frames: usize) -> Logbook {
        Logbook {
            figures,
            frames,
            count: 0,
            charge: figures.start,
            totals: Totals::default(),
            history: Vec::new(),
        }
    }

    /// 20: every frame is recorded already.
    fn frames_left(&self) -> Checked {
        refusals::frames_left(self.count as u64, self.frames as u64)
    }

    /// Enters typed figures, or refuses them by 20, 6 or 21 and stays as it is.
    pub fn record(&mut self, harvest: u32, used: u32) -> Checked {
        self.frames_left()?;
        refusals::harvests(self.count as u64 + 1, &[harvest])?;
        refusals::use_within(self.charge.into(), harvest, used)?;
        let end = frame(self.figures.capacity.into(), self.charge.into(), harvest, used);
        let entry = entry(harvest, used, end.lost);
        self.count += 1;
        self.charge = end.charge as u32;
        self.totals = joined(self.totals, entry);
        self.history.push(entry);
        Ok(())
    }

    /// What planning the rest must answer (7, 20, 6, 10, short), and the budgets that it must leave.
    pub fn plan_rest(&self, frames: Frames, budgets: &mut [u32]) -> Result<Rest, Refusal> {
        lengths(frames, budgets.len(), self.frames)?;
        self.frames_left()?;
        let terms = terms(self.figures, self.frames);
        rest(terms, self.count, self.charge, frames, budgets, by_filling)
    }

    /// Where the part that begins at the next frame begins (7, 20).
    pub fn rest_part(&self, budgets: usize) -> Result<usize, Refusal> {
        refusals::same_length(budgets, self.frames)?;
        self.frames_left()?;
        Ok(self.count)
    }

    /// The shift's record that these entries give.
    pub fn record_now(&self) -> Shift {
        Shift {
            terms: terms(self.figures, self.frames),
            now: Present {
                recorded: self.count as u32,
                charge: self.charge,
                totals: self.totals,
            },
        }
    }

    /// Start plus the history's harvests is the charge plus its uses plus its losses, and the totals are its sums.
    pub fn balances(&self) -> bool {
        let sums = self.history.iter().copied().fold(Totals::default(), joined);
        sums == self.totals && balances(self.figures.start, self.charge, sums)
    }
}
