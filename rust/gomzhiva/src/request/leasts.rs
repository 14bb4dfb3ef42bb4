//! How the leasts of a request fail as budgets, and with which start charge or capacity they would not, by the library's own
//! answers.

use super::Request;
use energy::{Figures, MAX_CAPACITY};

/// The store that a call goes by: with the capacity of the request, or without limit, so that nothing is lost.
#[derive(Clone, Copy, Debug, PartialEq, Eq)]
pub enum Store {
    OfRequest,
    Unlimited,
}

impl Request {
    /// Where the leasts fail, and what would be enough, or that nothing alone would.
    pub fn leasts_out_of_reach(&self, store: Store) -> Option<String> {
        let fail = self.leasts_fail(store)?;
        let enough = self.enough(store);
        let reach = format!("the leasts are out of reach: as budgets they {fail}");
        Some(format!("{reach}; {enough} would be enough"))
    }

    /// How the leasts fail: where they run the store dry and what is missing there, or what they leave.
    pub fn leasts_fail(&self, store: Store) -> Option<String> {
        let charges = self.least_charges(store)?;
        let (last, end) = (*charges.last()?, self.figures.end);
        match charges.iter().position(|&charge| charge < 0) {
            Some(frame) => {
                let (name, missing) = (self.frames.calendar.name(frame), -charges[frame]);
                Some(format!("run the store dry in {name}, with {missing} Wh missing there"))
            }
            None => (last < end.into()).then(|| format!("leave {last} Wh, and {end} Wh were asked for")),
        }
    }

    /// A higher start charge, or else a larger capacity: only that helps where the battery is full before the leasts fail.
    fn enough(&self, store: Store) -> String {
        let (capacity, nothing) = match store {
            Store::OfRequest => (self.enough_capacity(), "no start charge and no capacity alone"),
            Store::Unlimited => (None, "no start charge"),
        };
        match (self.enough_start(store), capacity) {
            (Some(start), _) => format!("a start charge of {start} Wh"),
            (None, Some(capacity)) => format!("a capacity of {capacity} Wh"),
            (None, None) => nothing.to_string(),
        }
    }

    /// The least start charge with which the call is accepted: more charge is never too much.
    fn enough_start(&self, store: Store) -> Option<u32> {
        let Figures { capacity, start, .. } = self.figures;
        least_above(start, capacity, |start| {
            self.is_accepted_with(Figures { start, ..self.figures }, store)
        })
    }

    /// The least capacity with which the request is planned: what is feasible only grows with it.
    fn enough_capacity(&self) -> Option<u32> {
        least_above(self.figures.capacity, MAX_CAPACITY, |capacity| {
            let figures = Figures {
                capacity,
                ..self.figures
            };
            self.is_accepted_with(figures, Store::OfRequest)
        })
    }

    /// Whether the library plans the request, or has a needed capacity for it, with these figures.
    fn is_accepted_with(&self, figures: Figures, store: Store) -> bool {
        match store {
            Store::OfRequest => energy::plan(figures, self.frames.lent()).is_ok(),
            Store::Unlimited => energy::needed(figures, self.frames.lent()).is_ok(),
        }
    }

    /// The charges to which the leasts lead, by the tracer.
    fn least_charges(&self, store: Store) -> Option<Vec<i64>> {
        let (figures, above) = match store {
            Store::OfRequest => (self.figures, 0),
            Store::Unlimited => (FROM_NOTHING, self.figures.start),
        };
        let traced = energy::trace(figures, &self.frames.harvest, &self.frames.least).ok()?;
        let charges = traced.charges.into_iter();
        Some(charges.map(|charge| charge + i64::from(above)).collect())
    }
}

/// The least figure that is enough, above one that is short and up to a largest one, by halving: one above it is enough too.
fn least_above(mut short: u32, largest: u32, is_enough: impl Fn(u32) -> bool) -> Option<u32> {
    if !is_enough(largest) {
        return None;
    }
    let mut enough = largest;
    while enough - short > 1 {
        let middle = short + (enough - short) / 2;
        if is_enough(middle) {
            enough = middle;
        } else {
            short = middle;
        }
    }
    Some(enough)
}

/// From nothing on all harvests of a week stay below the largest capacity, so that nothing is lost.
const FROM_NOTHING: Figures = Figures {
    capacity: MAX_CAPACITY,
    start: 0,
    end: 0,
};
