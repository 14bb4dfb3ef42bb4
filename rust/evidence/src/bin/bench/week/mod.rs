//! Half a week against a week: a hundred random requests of 336 frames and a hundred of 672, with leasts and mosts, and
//! their shifts, whose rest is planned anew at every frame. Document 02 (Point 4) allows the second hundred six times
//! the time of the first.

pub mod hundreds;

use crate::cold::{lower_quartile, once};
use crate::contenders::black_box;
use crate::measured::{BOTH, GROWTH};
use crate::table::{head, line};
use crate::words::{digits, verdict};
use energy::{Energy, Figures, Frames, Linked, Rest, Shift};
use evidence::lists::Lists;
use hundreds::{Way, MOSTS, WAYS};
use std::time::{Duration, Instant};

/// What document 02 allows a hundred plans of a week.
const ALLOWED: f64 = 6.0;

/// How many requests of each number of frames there are.
const HUNDRED: u64 = 100;

/// What the times of the table are.
pub const UNITS: &str =
    "milliseconds of a hundred plans and of a hundred needed capacities; microseconds of each planning of a rest, and \
     milliseconds of all those of a shift, one at each of its frames";

/// How long a call is made before it is timed.
const WARMED: Duration = Duration::from_secs(1);

/// A request, its budgets, and its shift before each frame, recorded as planned.
struct Planned {
    figures: Figures,
    lists: Lists,
    budgets: Vec<u32>,
    shifts: Vec<Shift>,
}

/// A call of every request: in how many passes, whether it is made at each frame, and what it may grow by.
struct Call {
    name: &'static str,
    run: fn(&mut Planned),
    passes: usize,
    for_each_frame: bool,
    limits: &'static [f64],
}

const CALLS: [Call; 3] = [
    Call {
        name: "plan",
        run: plan,
        passes: 60,
        for_each_frame: false,
        limits: &[ALLOWED, GROWTH],
    },
    Call {
        name: "needed capacity",
        run: needed,
        passes: 60,
        for_each_frame: false,
        limits: &[GROWTH],
    },
    Call {
        name: "rest",
        run: rests,
        passes: 9,
        for_each_frame: true,
        limits: &[GROWTH],
    },
];

fn plan(planned: &mut Planned) {
    let lists = black_box(planned.lists.frames());
    let answer = Linked.plan(black_box(planned.figures), lists, &mut planned.budgets);
    assert!(answer.is_ok());
    black_box(&planned.budgets);
}

fn needed(planned: &mut Planned) {
    let lists = black_box(planned.lists.frames());
    assert!(black_box(Linked.needed(black_box(planned.figures), lists)).is_ok());
}

/// Plans the rest anew at every frame.
fn rests(planned: &mut Planned) {
    for &shift in &planned.shifts {
        let lists = black_box(planned.lists.frames());
        let answer = Linked.shift_plan_rest(black_box(shift), lists, &mut planned.budgets);
        assert!(matches!(answer, Ok(Rest::Planned)));
    }
    black_box(&planned.budgets);
}

/// The shift before each of its frames, where all are recorded as planned.
pub fn shifts(figures: Figures, frames: Frames, plan: &[u32]) -> Vec<Shift> {
    let mut shift = Linked.shift_start(figures, frames).expect("a plan is there");
    let mut shifts = Vec::new();
    for (&harvest, &used) in frames.harvest.iter().zip(plan) {
        shifts.push(shift);
        shift = Linked.shift_record(shift, harvest, used).expect("a budget of the plan");
    }
    shifts
}

impl Planned {
    fn new((figures, lists): (Figures, Lists)) -> Planned {
        let mut budgets = vec![0; lists.count()];
        let answer = Linked.plan(figures, lists.frames(), &mut budgets);
        answer.expect("an accepted request");
        Planned {
            shifts: shifts(figures, lists.frames(), &budgets),
            figures,
            lists,
            budgets,
        }
    }
}

/// The times of a call: microseconds of all requests of either number of frames.
struct Times {
    way: Way,
    call: &'static Call,
    micros: [f64; 2],
}

impl Times {
    /// Calls both hundreds in turn; the lower quartiles of the passes, once the processor is at work.
    fn of(way: Way, call: &'static Call, hundreds: &mut [Vec<Planned>; 2]) -> Times {
        let begin = Instant::now();
        while begin.elapsed() < WARMED {
            hundreds.iter_mut().flatten().for_each(call.run);
        }
        let mut times = [Vec::new(), Vec::new()];
        for _ in 0..call.passes {
            for (hundred, times) in hundreds.iter_mut().zip(&mut times) {
                times.push(once(|| hundred.iter_mut().for_each(call.run)));
            }
        }
        let micros = times.map(|times| lower_quartile(&times));
        Times { way, call, micros }
    }

    /// How a call grows: where every frame has one, each of them.
    fn ratio(&self) -> f64 {
        let [half, whole] = self.micros;
        let calls = if self.call.for_each_frame { BOTH } else { [1, 1] };
        (whole / calls[1] as f64) / (half / calls[0] as f64)
    }

    /// Whether it is within a limit.
    fn meets(&self, limit: f64) -> bool {
        self.ratio() <= limit
    }

    /// Its limits, and what becomes of them.
    fn judged(&self) -> String {
        let judged = |&limit: &f64| format!("{limit} {}", verdict(self.meets(limit)));
        let limits: Vec<String> = self.call.limits.iter().map(judged).collect();
        limits.join(", ")
    }

    /// Its line of the table: milliseconds of a hundred requests, or of a request and microseconds of each call.
    fn line(&self) -> String {
        let time = |(micros, frames): (f64, usize)| {
            if self.call.for_each_frame {
                let shift = micros / HUNDRED as f64;
                format!(
                    "{} us, {} ms a shift",
                    digits(shift / frames as f64),
                    digits(shift / 1e3)
                )
            } else {
                format!("{} ms", digits(micros / 1e3))
            }
        };
        let [half, whole] = [0, 1].map(|i| time((self.micros[i], BOTH[i])));
        let names = [self.way.name(), self.call.name].map(String::from);
        line(
            names
                .into_iter()
                .chain([half, whole, digits(self.ratio()), self.judged()]),
        )
    }
}

/// The times of a way to draw requests.
fn of_way(way: Way) -> Vec<Times> {
    let mut hundreds = BOTH.map(|frames| way.first(HUNDRED, frames).into_iter().map(Planned::new).collect());
    CALLS.iter().map(|call| Times::of(way, call, &mut hundreds)).collect()
}

/// The table, and the calls that miss a limit.
fn report(times: &[Times]) -> (String, Vec<String>) {
    let columns = BOTH.map(|frames| format!("{frames} frames"));
    let names = ["requests", "call"].map(String::from).into_iter().chain(columns);
    let names = names.chain(["ratio", "at most"].map(String::from));
    let lines: String = times.iter().map(Times::line).collect();
    let is_missed = |times: &&Times| times.call.limits.iter().any(|&limit| !times.meets(limit));
    let missed = times.iter().filter(is_missed);
    let missed = missed.map(|times| format!("{} {}", times.way.name(), times.call.name));
    (format!("{}{lines}", head(names)), missed.collect())
}

/// The largest harvests of the requests.
pub fn mosts() -> String {
    MOSTS.map(|most| most.to_string()).join(", ")
}

/// Measures all of it: the table, and the calls that miss a limit.
pub fn measure() -> (String, Vec<String>) {
    let times: Vec<Times> = WAYS.into_iter().flat_map(of_way).collect();
    report(&times)
}

#[cfg(test)]
mod tests {
    use super::*;

    /// What is said of a call with these times.
    fn said(call: &'static Call, half: f64, whole: f64) -> (String, Vec<String>) {
        let micros = [half, whole];
        let way = Way::Anyhow;
        report(&[Times { way, call, micros }])
    }

    #[test]
    fn a_limit_is_met_at_itself_and_missed_above() {
        let (table, missed) = said(&CALLS[0], 1000.0, 2600.0);
        assert!(table.ends_with("| anyhow | plan | 1.00 ms | 2.60 ms | 2.60 | 6 met, 2.6 met |\n"));
        assert!(missed.is_empty());
        let (table, missed) = said(&CALLS[0], 1000.0, 2601.0);
        assert!(table.ends_with(" | 6 met, 2.6 missed |\n"));
        assert_eq!(missed, ["anyhow plan"]);
        let (table, missed) = said(&CALLS[0], 1000.0, 6001.0);
        assert!(table.ends_with(" | 6 missed, 2.6 missed |\n"));
        assert_eq!(missed, ["anyhow plan"]);
    }

    #[test]
    fn a_rest_grows_by_each_planning() {
        let (half, whole) = (100.0 * 336.0 * 6.0, 100.0 * 672.0 * 12.0);
        let (table, missed) = said(&CALLS[2], half, whole);
        let line = "| anyhow | rest | 6.00 us, 2.02 ms a shift | 12.0 us, 8.06 ms a shift | 2.00 | 2.6 met |\n";
        assert!(table.ends_with(line), "{table}");
        assert!(missed.is_empty());
    }
}
