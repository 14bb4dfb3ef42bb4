//! Cold times: a panel plans once, so another request is called before every call. A pass goes through the requests of
//! all rows in an order of its own, one contender after another, and times each call by itself, less the clock's own
//! time. So a processor has not learned a request's branches, and its lists come from the outer caches, as more than a
//! thousand others were there since. Warm are the contender's code, its stack and the list of budgets, which the
//! request before has used too. The figure is the lower quartile of the passes, as other programs disturb some of them.

use crate::time::{OfRow, Timed};
use evidence::random::{seed, Random};
use std::time::Instant;

/// How often the clock is asked for its own time.
const ASKED: usize = 1_001;

/// Microseconds between two looks at the clock, a call between them.
pub fn once(call: impl FnOnce()) -> f64 {
    let begin = Instant::now();
    call();
    begin.elapsed().as_secs_f64() * 1e6
}

/// Microseconds of the clock by itself.
pub fn clock() -> f64 {
    let looks: Vec<f64> = (0..ASKED).map(|_| once(|| ())).collect();
    lower_quartile(&looks)
}

/// The lower quartile of some times.
pub fn lower_quartile(times: &[f64]) -> f64 {
    let mut sorted = times.to_vec();
    sorted.sort_by(f64::total_cmp);
    sorted[sorted.len() / 4]
}

/// The numbers below a count, in the random order of a pass.
pub fn shuffled(count: usize, number: u64) -> Vec<usize> {
    let mut random = Random::of_case(seed(), number);
    let mut order: Vec<usize> = (0..count).collect();
    for i in (1..count).rev() {
        order.swap(i, random.up_to(i as u64) as usize);
    }
    order
}

/// One pass, the same for every contender.
pub fn pass(requests: &[OfRow], all: &mut [Timed], number: u64) {
    let (clock, order) = (clock(), shuffled(requests.len(), number));
    for timed in all {
        for &i in &order {
            let (row, request) = &requests[i];
            if timed.contender.answers(row) {
                let time = once(|| (timed.run)(request));
                timed.cold[i].push(time - clock);
            }
        }
    }
}
