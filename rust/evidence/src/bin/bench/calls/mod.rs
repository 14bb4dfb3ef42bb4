//! What each function of the header takes at most: warm, cold, and with emptied caches, where more memory than the
//! caches hold was gone through before every call, so that code, stack and lists come from memory. A request's figure
//! is the best round or the lower quartile of the passes; the table has the greatest over the requests.

mod longest;

use crate::cold::{clock, lower_quartile, once, shuffled};
use crate::contenders::black_box;
use crate::subject::FUNCTIONS;
use crate::table::{head, line};
use crate::warm::{best, repeated};
use crate::words::digits;
use longest::{longest, searched, Group, Longest, GROUPS};

/// How often each request is timed warm, cold, and with emptied caches.
const ROUNDS: u64 = 10;
const PASSES: u64 = 40;
const EMPTIED: u64 = 5;

/// More bytes than the caches hold, and the bytes of a line of them.
const SWEPT: usize = 1 << 26;
const CACHE_LINE: usize = 64;

/// The times of every function for every request.
type Times = Vec<Vec<Vec<f64>>>;

/// No times yet.
fn untimed(requests: &[Longest]) -> Times {
    FUNCTIONS.iter().map(|_| vec![Vec::new(); requests.len()]).collect()
}

/// One round: each request called again and again.
fn warm_round(requests: &mut [Longest], times: &mut Times) {
    for (function, times) in FUNCTIONS.iter().zip(times) {
        for (request, times) in requests.iter_mut().zip(times) {
            times.push(repeated(|| {
                black_box((function.call)(&mut request.subject));
            }));
        }
    }
}

/// One pass in random order: each call by itself, after something else was done.
fn cold_pass(requests: &mut [Longest], times: &mut Times, number: u64, mut before: impl FnMut(&Longest) -> bool) {
    let (clock, order) = (clock(), shuffled(requests.len(), number));
    for (function, times) in FUNCTIONS.iter().zip(times) {
        for &i in &order {
            if before(&requests[i]) {
                let time = once(|| {
                    black_box((function.call)(&mut requests[i].subject));
                });
                times[i].push(time - clock);
            }
        }
    }
}

/// Goes through memory, so that nothing else is left in the caches.
fn sweep(memory: &mut [u8]) {
    for byte in memory.iter_mut().step_by(CACHE_LINE) {
        *byte = byte.wrapping_add(1);
    }
    black_box(memory[0]);
}

/// The greatest figure of a group's requests, as far as they were timed.
fn greatest(requests: &[Longest], times: &[Vec<f64>], group: Group, figure: fn(&[f64]) -> f64) -> f64 {
    let of_group = requests
        .iter()
        .zip(times)
        .filter(|(request, times)| request.group == group && !times.is_empty());
    of_group.map(|(_, times)| figure(times)).fold(0.0, f64::max)
}

/// A function's cell: a figure for each group.
fn cell(requests: &[Longest], times: &[Vec<f64>], figure: fn(&[f64]) -> f64) -> String {
    let of_group = |group| digits(greatest(requests, times, group, figure));
    GROUPS.map(of_group).join(", ")
}

/// Times of all requests: warm, cold, and with emptied caches.
fn time(requests: &mut [Longest]) -> [Times; 3] {
    let [mut warm, mut cold, mut emptied] = [(); 3].map(|()| untimed(requests));
    let mut memory = vec![0; SWEPT];
    (0..ROUNDS).for_each(|_| warm_round(requests, &mut warm));
    (0..PASSES).for_each(|i| cold_pass(requests, &mut cold, i, |_| true));
    for i in 0..EMPTIED {
        cold_pass(requests, &mut emptied, i, |request| {
            if request.is_first {
                sweep(&mut memory);
            }
            request.is_first
        });
    }
    [warm, cold, emptied]
}

/// What the search of every budget takes in each group that has it.
fn search() -> String {
    let groups = [Group::Unbounded, Group::Bounded, Group::Nested];
    groups.map(|group| digits(searched(group))).join(", ")
}

/// Measures all of it, and gives the table.
pub fn measure() -> String {
    let mut requests = longest();
    let [warm, cold, emptied] = time(&mut requests);
    let mut text = head(["function", "warm", "cold", "emptied caches"].map(String::from));
    for (i, function) in FUNCTIONS.iter().enumerate() {
        text += &line([
            format!("`{}`", function.name),
            cell(&requests, &warm[i], best),
            cell(&requests, &cold[i], lower_quartile),
            cell(&requests, &emptied[i], lower_quartile),
        ]);
    }
    format!("{text}\nEvery budget searched, in the twin: {}.\n", search())
}
