//! The rest of the run: a shift, and the linear programs.

use crate::contenders::black_box;
use crate::rows::MOST;
use crate::warm::alone;
use energy::{Energy, Figures, Frames};
use evidence::algorithms::linear;
use evidence::families::{bounded, request, Family, Size, FRAMES};
use evidence::lists::Lists;
use evidence::random::{seed, Random};
use evidence::reference::curves::{grade, Curve, HOUSE_CURVES};
use evidence::under_test;
use std::time::Instant;

/// A request of daily sun without bounds and with them: the same in every run with the same seed.
pub fn daily_sun(size: Size, frames: usize) -> (Figures, [(&'static str, Lists); 2]) {
    let random = &mut Random::of_case(seed(), frames as u64);
    let (figures, harvest) = request(Family::DailySun, size, frames, MOST, random);
    let lists = bounded(figures, harvest.clone(), random);
    (figures, [("unbounded", Lists::unbounded(harvest)), ("bounded", lists)])
}

/// Microseconds of a plan by an implementation.
fn plan_micros(energy: &dyn Energy, figures: Figures, frames: Frames) -> f64 {
    let mut budgets = vec![0; frames.harvest.len()];
    alone(|| {
        let answer = energy.plan(black_box(figures), black_box(frames), &mut budgets);
        assert!(answer.is_ok());
        black_box(&budgets);
    })
}

/// A shift of 96 frames, planned anew before every frame.
fn measure_shift(all: &[Box<dyn Energy>]) {
    println!("\n## A shift of 96 frames, planned anew at every frame\n");
    let (figures, kinds) = daily_sun(Size::Middle, 96);
    for (kind, lists) in &kinds {
        for energy in all {
            let mut budgets = vec![0; lists.count()];
            let time = alone(|| {
                let mut shift = energy
                    .shift_start(figures, black_box(lists.frames()))
                    .expect("a valid request");
                for (i, &h) in lists.harvest.iter().enumerate() {
                    energy
                        .shift_plan_rest(shift, lists.frames(), &mut budgets)
                        .expect("a rest to plan");
                    shift = energy.shift_record(shift, h, budgets[i]).expect("a frame to record");
                }
                black_box(shift);
            });
            println!("{kind}, {}: {time:.2} us", energy.name());
        }
    }
}

/// The optimum of the linear program, and the microseconds that it took; nothing but a word where there is none.
fn solve(figures: Figures, frames: Frames, curve: &Curve) -> Option<(f64, f64)> {
    let begin = Instant::now();
    match linear::optimum(figures, frames, curve) {
        Ok(Some(optimum)) => return Some((optimum, begin.elapsed().as_secs_f64() * 1e6)),
        Ok(None) => println!("glpsol is not installed (Debian: glpk-utils): skipped"),
        Err(error) => println!("glpsol could not be run: {error}"),
    }
    None
}

/// One plan's worth by each house curve against the optimum of a linear program for that curve; false where there is no solver.
fn compare_linear(energy: &dyn Energy, figures: Figures, kind: &str, frames: Frames) -> bool {
    let mut budgets = vec![0; frames.harvest.len()];
    energy.plan(figures, frames, &mut budgets).expect("a valid request");
    let (count, name, time) = (budgets.len(), energy.name(), plan_micros(energy, figures, frames));
    for (number, (curve, worth)) in HOUSE_CURVES.iter().zip(grade(&budgets)).enumerate() {
        let (optimum, solver) = match solve(figures, frames, curve) {
            Some(solved) => solved,
            None => return false,
        };
        let same = if worth as f64 == optimum {
            "the same"
        } else {
            "DIFFERENT"
        };
        println!(
            "{count} frames, {kind}, curve {number}: {name} {worth} in {time:.2} us, glpsol {optimum} in {solver:.0} us: {same}"
        );
    }
    true
}

/// The plan's worth against linear programs, one for each house curve.
fn measure_linear(all: &[Box<dyn Energy>]) {
    println!("\n## The house curves as linear programs\n");
    for frames in FRAMES {
        let (figures, kinds) = daily_sun(Size::Small, frames);
        for (kind, lists) in &kinds {
            for energy in all {
                if !compare_linear(energy.as_ref(), figures, kind, lists.frames()) {
                    return;
                }
            }
        }
    }
}

/// The linear programs alone.
pub fn compare_with_solver() {
    measure_linear(&under_test());
}

/// Measures all of it.
pub fn measure() {
    let all = under_test();
    measure_shift(&all);
    measure_linear(&all);
}
