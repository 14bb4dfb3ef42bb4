//! Random requests with leasts and mosts, drawn in two ways, of which each is accepted.

use energy::{Energy, Figures, Linked, MAX_HARVEST};
use evidence::bounds::{around, KINDS};
use evidence::families::{full, request, FAMILIES, SIZES};
use evidence::lists::Lists;
use evidence::random::{seed, Random};

/// How a request is drawn.
#[derive(Clone, Copy)]
pub enum Way {
    /// Every figure by itself, until a request comes that is accepted.
    Anyhow,
    /// Of any family and size, with bounds of any kind around its plan without bounds.
    Families,
}

/// Both ways, in the order of the table.
pub const WAYS: [Way; 2] = [Way::Anyhow, Way::Families];

/// The largest harvests.
pub const MOSTS: [u32; 3] = [10, 1_000, MAX_HARVEST];

/// Any harvests up to a most, a least and a most in half of the frames each, a store for the harvests of up to a quarter
/// of the frames, and any start and end: some such requests are refused.
fn anyhow(frames: usize, random: &mut Random) -> (Figures, Lists) {
    let most = *random.pick(&MOSTS);
    let mut lists = Lists::unbounded(random.list(frames, most));
    for (least, upper) in lists.least.iter_mut().zip(&mut lists.most) {
        if random.one_in(2) {
            *least = random.up_to_u32(most / 2);
        }
        if random.one_in(2) {
            *upper = *least + random.up_to_u32(most);
        }
    }
    let stored = random.up_to_u32(frames as u32 / 4);
    let capacity = random.up_to_u32(most * stored);
    let [start, end] = [(); 2].map(|()| random.up_to_u32(capacity));
    (Figures { capacity, start, end }, lists)
}

/// A request of any family, now and then one that starts and ends full.
fn of_families(frames: usize, random: &mut Random) -> (Figures, Lists) {
    let (family, size, kind) = (*random.pick(&FAMILIES), *random.pick(&SIZES), *random.pick(&KINDS));
    let (figures, harvest) = request(family, size, frames, *random.pick(&MOSTS), random);
    let figures = if random.one_in(4) { full(figures) } else { figures };
    let free = Lists::unbounded(harvest.clone());
    let mut plan = vec![0; frames];
    Linked
        .plan(figures, free.frames(), &mut plan)
        .expect("a request within reach");
    let (least, most) = around(kind, figures, &harvest, &plan, random);
    (figures, Lists { harvest, least, most })
}

impl Way {
    /// Its name in tables.
    pub fn name(self) -> &'static str {
        match self {
            Way::Anyhow => "anyhow",
            Way::Families => "families",
        }
    }

    /// A request of so many frames, which may be refused.
    fn draw(self, frames: usize, random: &mut Random) -> (Figures, Lists) {
        match self {
            Way::Anyhow => anyhow(frames, random),
            Way::Families => of_families(frames, random),
        }
    }

    /// The first of the drawn requests of a case that is accepted.
    fn accepted(self, frames: usize, case: u64) -> (Figures, Lists) {
        let mut random = Random::of_case(seed(), case);
        let mut budgets = vec![0; frames];
        loop {
            let (figures, lists) = self.draw(frames, &mut random);
            if Linked.plan(figures, lists.frames(), &mut budgets).is_ok() {
                return (figures, lists);
            }
        }
    }

    /// The first of a hundred accepted requests of so many frames: the same in every run with the same seed.
    pub fn first(self, some: u64, frames: usize) -> Vec<(Figures, Lists)> {
        (0..some).map(|case| self.accepted(frames, case)).collect()
    }
}

#[cfg(test)]
mod tests {
    use super::*;
    use energy::NO_UPPER_END;

    #[test]
    fn requests_are_the_same_each_time_and_have_bounds() {
        for way in WAYS {
            let lists = || way.first(4, 96).into_iter().map(|(_, lists)| lists);
            assert!(lists().any(|lists| lists.least.iter().any(|&least| least != 0)));
            assert!(lists().any(|lists| lists.most.iter().any(|&most| most != NO_UPPER_END)));
            assert!(lists().eq(lists()), "{}", way.name());
        }
    }
}
