//! Trace, writing, reading and the listing beside the same in Rust, at every number of frames.

use crate::contenders::black_box;
use crate::rest::daily_sun;
use crate::subject::{function, Subject};
use crate::table::{head, line};
use crate::warm::{best, repeated};
use crate::words::digits;
use energy::{Energy, Linked};
use evidence::families::{Size, FRAMES};
use evidence::fast::Fast;

/// The functions, in an order in which each finds what it needs.
const FUNCTIONS: [&str; 4] = ["energy_trace", "energy_write", "energy_read", "energy_listing"];

/// Library and twin.
const CONTENDERS: [&dyn Energy; 2] = [&Linked, &Fast];

/// How often each call is timed.
const ROUNDS: usize = 100;

/// Microseconds of a function by library and twin, in turns: the best rounds.
fn micros(name: &str, subjects: &mut [Subject; 2]) -> [f64; 2] {
    let call = function(name).call;
    let mut times = [Vec::new(), Vec::new()];
    for _ in 0..ROUNDS {
        for (subject, times) in subjects.iter_mut().zip(&mut times) {
            times.push(repeated(|| {
                black_box(call(subject));
            }));
        }
    }
    times.map(|times| best(&times))
}

/// A figure of the times without bounds and of those with.
fn pair(times: &[[f64; 2]; 2], figure: fn([f64; 2]) -> f64) -> String {
    times.map(|times| digits(figure(times))).join(", ")
}

/// A function's line at a number of frames: microseconds and the ratio, without bounds and with them.
fn of_frames(name: &str, frames: usize) -> String {
    let (figures, kinds) = daily_sun(Size::Middle, frames);
    let times = kinds.map(|(_, lists)| {
        let mut subjects = CONTENDERS.map(|energy| Subject::called(energy, figures, lists.clone(), 0));
        micros(name, &mut subjects)
    });
    let figures = [
        pair(&times, |[library, _]| library),
        pair(&times, |[library, twin]| library / twin),
    ];
    line([format!("`{name}`"), frames.to_string()].into_iter().chain(figures))
}

/// Measures all of it, and gives the table.
pub fn measure() -> String {
    let mut text = head(["function", "frames", "us", "/ twin"].map(String::from));
    for name in FUNCTIONS {
        for frames in FRAMES {
            text += &of_frames(name, frames);
        }
    }
    text
}
