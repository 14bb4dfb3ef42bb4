//! Robustness: `rust/cargo run --release --bin robustness [COUNT [FIRST]]`, a million random and mutated files and calls by default.
//!
//! Every case goes through every implementation and is compared with the reference. A differing answer is printed with
//! its case and counted; a case that hangs is printed and ends the run. Case N is the same in every run with one seed.

use evidence::cases::Case;
use evidence::check::check;
use evidence::generate::any_case;
use evidence::random::{seed, Random};
use evidence::under_test;
use std::collections::BTreeMap;
use std::process::ExitCode;
use std::sync::atomic::{AtomicU64, Ordering};
use std::thread;
use std::time::Duration;

/// The case that is running, for the watch.
static RUNNING: AtomicU64 = AtomicU64::new(0);

/// How long a case may take.
const PATIENCE: Duration = Duration::from_secs(60);

/// A case's kind in the counts.
fn kind(case: &Case) -> String {
    case.to_string().split(' ').next().unwrap_or_default().to_string()
}

/// Ends the run with its case number if one case takes too long.
fn watch() {
    loop {
        let before = RUNNING.load(Ordering::Relaxed);
        thread::sleep(PATIENCE);
        if RUNNING.load(Ordering::Relaxed) == before {
            eprintln!(
                "hangs: case {before}; see it again: ENERGY_SEED={} robustness 1 {before}",
                seed()
            );
            std::process::exit(2);
        }
    }
}

/// A number of the command line.
fn argument(place: usize, default: u64) -> u64 {
    match std::env::args().nth(place) {
        Some(text) => text.parse().expect("COUNT and FIRST are whole numbers"),
        None => default,
    }
}

fn main() -> ExitCode {
    let (count, first) = (argument(1, 1_000_000), argument(2, 0));
    let all = under_test();
    let names: Vec<&str> = all.iter().map(|energy| energy.name()).collect();
    println!(
        "{count} cases from {first}, seed {}, through: {}",
        seed(),
        names.join(", ")
    );
    thread::spawn(watch);
    let mut counts: BTreeMap<String, u64> = BTreeMap::new();
    let mut different = 0_u64;
    for number in first..first + count {
        RUNNING.store(number, Ordering::Relaxed);
        let case = any_case(&mut Random::of_case(seed(), number));
        *counts.entry(kind(&case)).or_default() += 1;
        for energy in &all {
            if let Err(difference) = check(energy.as_ref(), &case) {
                different += 1;
                println!("case {number}, {}: {difference}\n  ENERGY_CASE='{case}'", energy.name());
            }
        }
        if (number + 1) % 100_000 == 0 {
            println!("{} cases", number + 1 - first);
        }
    }
    for (kind, count) in &counts {
        println!("{kind}: {count}");
    }
    println!("{count} cases, {different} different");
    ExitCode::from(u8::from(different > 0))
}
