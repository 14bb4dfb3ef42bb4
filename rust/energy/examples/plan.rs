//! Plans a request, records a frame that went otherwise, and plans the rest again.
//! Run: `rust/cargo run -p energy --example plan`, after `tools/library`.

use energy::{Figures, Frames};
use std::error::Error;

/// Prints a label and the budgets.
fn print_budgets(label: &str, budgets: &[u32]) {
    let words: Vec<String> = budgets.iter().map(u32::to_string).collect();
    println!("{label}: {}", words.join(" "));
}

/// The plan, the needed capacity, and the rest after the first frame.
fn run() -> Result<(), Box<dyn Error>> {
    let figures = Figures {
        capacity: 5,
        start: 2,
        end: 2,
    };
    let frames = Frames::unbounded(&[6, 4, 0, 0, 5, 5]);
    print_budgets("plan", &energy::plan(figures, frames)?);
    println!("needed: {}", energy::needed(figures, frames)?);

    let shift = energy::start(figures, frames)?;
    let shift = energy::record(shift, 1, 3)?;
    print_budgets("rest", &energy::plan_rest(shift, frames)?.budgets);
    Ok(())
}

fn main() {
    if let Err(error) = run() {
        eprintln!("{error}");
        std::process::exit(1);
    }
}
