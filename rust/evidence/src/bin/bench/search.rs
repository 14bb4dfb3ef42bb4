//! The fallback: what a plan takes in the twin where no guess is certified and every budget is searched. The guesses
//! before it, which take as long as a plan, are not in it.

use crate::contenders::black_box;
use crate::rows::{rows, Figure, Request, Row};
use crate::words::{digits, with_or_without, worst};
use evidence::algorithms::certificate::frame::{Bounded, Plain};
use evidence::algorithms::certificate::search::search;
use evidence::families::FRAMES;
use std::time::Instant;

/// Microseconds of the search in the first request of each row: the best of the rounds.
pub struct Searched(Vec<Figure>);

/// Searches all budgets of a request.
fn search_all(request: &Request, is_bounded: bool, budgets: &mut [u32]) {
    let figures = request.figures;
    let lists = &request.lists;
    let plain = Plain::new(
        figures.capacity.into(),
        figures.start.into(),
        figures.end.into(),
        &lists.harvest,
    );
    if is_bounded {
        let (least, most) = (&lists.least, &lists.most);
        search(&Bounded { plain, least, most }, budgets);
    } else {
        search(&plain, budgets);
    }
}

/// Microseconds of the search in a request.
pub fn micros(request: &Request, is_bounded: bool) -> f64 {
    let mut budgets = vec![0; request.lists.count()];
    let begin = Instant::now();
    search_all(request, is_bounded, &mut budgets);
    black_box(&budgets);
    begin.elapsed().as_secs_f64() * 1e6
}

impl Searched {
    /// Nothing timed.
    pub fn untimed() -> Searched {
        Searched(rows().into_iter().map(|row| (row, f64::INFINITY)).collect())
    }

    /// One round.
    pub fn round(&mut self) {
        for (row, best) in &mut self.0 {
            *best = best.min(micros(&row.requests(1)[0], row.bounded));
        }
    }

    /// Microseconds of the search in a row.
    pub fn micros(&self, row: &Row) -> Option<f64> {
        let found = self.0.iter().find(|(other, _)| other == row)?;
        Some(found.1)
    }

    /// The mean and the worst of the families without bounds or with them.
    fn of_families(&self, bounded: bool, frames: usize) -> String {
        let is_chosen = |row: &Row| row.is_summed() && (row.bounded, row.frames) == (bounded, frames);
        let chosen: Vec<Figure> = self.0.iter().copied().filter(|(row, _)| is_chosen(row)).collect();
        let mean = chosen.iter().map(|(_, micros)| micros).sum::<f64>() / chosen.len() as f64;
        format!(
            "{} {}, the worst {}",
            with_or_without(bounded),
            digits(mean),
            worst(&chosen)
        )
    }

    /// The nested bounds.
    fn of_nested(&self, frames: usize) -> String {
        let nested = self.0.iter().find(|(row, _)| !row.is_summed() && row.frames == frames);
        nested.map_or(String::new(), |(row, micros)| {
            format!("{} {}", row.family(), digits(*micros))
        })
    }

    /// The section: a line for each number of frames.
    pub fn report(&self) -> String {
        let mut text = "\n## Every budget searched, in the twin, in us\n\n".to_string();
        for frames in FRAMES {
            let families = [false, true]
                .map(|bounded| self.of_families(bounded, frames))
                .join("; ");
            text += &format!("- {frames} frames: {families}; {}\n", self.of_nested(frames));
        }
        text
    }
}
