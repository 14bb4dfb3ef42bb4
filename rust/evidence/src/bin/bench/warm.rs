//! Warm times: in a round a request is called many times in a row, whether its row has one or several, so that a
//! processor learns its branches, and its lists stay in the nearest cache. The figure is the best round.

use crate::time::{OfRow, Timed};
use std::time::{Duration, Instant};

/// How long a request is called.
const LONG: Duration = Duration::from_micros(500);

/// The rounds of a call that is timed by itself: more than of others, as they follow one another.
const ALONE: usize = 300;

/// Microseconds of a call: the mean of those in a row.
pub fn repeated(mut call: impl FnMut()) -> f64 {
    let begin = Instant::now();
    let mut done = 0;
    while done == 0 || begin.elapsed() < LONG {
        call();
        done += 1;
    }
    begin.elapsed().as_secs_f64() * 1e6 / f64::from(done)
}

/// One round: each request by one contender after another.
pub fn round(requests: &[OfRow], all: &mut [Timed]) {
    for (i, (row, request)) in requests.iter().enumerate() {
        for timed in all.iter_mut().filter(|timed| timed.contender.answers(row)) {
            let time = repeated(|| (timed.run)(request));
            timed.warm[i].push(time);
        }
    }
}

/// The best of some times.
pub fn best(times: &[f64]) -> f64 {
    times.iter().copied().fold(f64::INFINITY, f64::min)
}

/// Microseconds of one call by itself.
pub fn alone(mut call: impl FnMut()) -> f64 {
    let rounds: Vec<f64> = (0..ALONE).map(|_| repeated(&mut call)).collect();
    best(&rounds)
}
