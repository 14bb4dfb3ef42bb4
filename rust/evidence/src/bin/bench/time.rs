//! What is timed: every request of every row, by every contender, warm and cold, and the search. All of it in turns, so
//! that what disturbs the machine for a while disturbs all of it, and none of it in every round.

use crate::beside::Beside;
use crate::cold::{lower_quartile, pass};
use crate::contenders::{Call, Contender, Run, CALLS, CONTENDERS};
use crate::measured::{Column, Unit};
use crate::rows::{rows, Request, Row, TIMED};
use crate::search::Searched;
use crate::warm::{best, round};

/// How often each request is timed warm, and how often cold for each of these times.
const ROUNDS: u64 = 30;
const PASSES: u64 = 2;

/// A request with its row.
pub type OfRow = (Row, Request);

/// A contender that makes a call, and all times of each request.
pub struct Timed {
    call: Call,
    pub contender: Contender,
    pub run: Run,
    pub warm: Vec<Vec<f64>>,
    pub cold: Vec<Vec<f64>>,
}

/// The timed requests of all rows.
fn requests() -> Vec<OfRow> {
    let of_row = |row: Row| row.requests(TIMED).into_iter().map(move |request| (row, request));
    rows().into_iter().flat_map(of_row).collect()
}

/// The contenders that take part in a call, with nothing timed of so many requests.
fn untimed(call: Call, beside: Option<&Beside>, requests: usize) -> Vec<Timed> {
    let untimed = |contender: Contender| {
        Some(Timed {
            call,
            contender,
            run: contender.run(call, beside)?,
            warm: vec![Vec::new(); requests],
            cold: vec![Vec::new(); requests],
        })
    };
    CONTENDERS.into_iter().filter_map(untimed).collect()
}

/// The columns of all times, and those of the search.
pub fn measure(beside: Option<&Beside>) -> (Vec<Column>, Searched) {
    let requests = requests();
    let mut searched = Searched::untimed();
    let mut calls = CALLS.map(|call| untimed(call, beside, requests.len()));
    for i in 0..ROUNDS {
        for all in &mut calls {
            round(&requests, all);
            (0..PASSES).for_each(|j| pass(&requests, all, i * PASSES + j));
        }
        searched.round();
    }
    let timed = calls.iter().flatten();
    (timed.flat_map(|timed| timed.columns(&requests)).collect(), searched)
}

impl Timed {
    /// Its columns: in each row the mean over the requests of a figure of their times.
    fn columns(&self, requests: &[OfRow]) -> [Column; 2] {
        let warm = |row: &Row| self.mean(row, requests, &self.warm, best);
        let cold = |row: &Row| self.mean(row, requests, &self.cold, lower_quartile);
        let column = |unit, figures| Column {
            unit,
            call: self.call,
            contender: self.contender,
            figures,
        };
        let rows = rows();
        [
            column(Unit::Warm, rows.iter().map(warm).collect()),
            column(Unit::Cold, rows.iter().map(cold).collect()),
        ]
    }

    /// The mean over a row's requests, if the contender answers them.
    fn mean(&self, row: &Row, requests: &[OfRow], times: &[Vec<f64>], figure: fn(&[f64]) -> f64) -> Option<f64> {
        if !self.contender.answers(row) {
            return None;
        }
        let of_row = requests.iter().zip(times).filter(|((other, _), _)| other == row);
        let figures: Vec<f64> = of_row.map(|(_, times)| figure(times)).collect();
        Some(figures.iter().sum::<f64>() / figures.len() as f64)
    }
}
