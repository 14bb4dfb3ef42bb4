//! The plan against the source's Algorithm 2, which yields fractions: every budget is within one unit of them.

use energy::{Figures, Frames};
use evidence::algorithms::source::recursive_decomposition;
use evidence::families::{request, FAMILIES, FRAMES, SIZES};
use evidence::random::{seed, Random};
use evidence::under_test;

/// The fractions of a request.
fn fractions(figures: Figures, harvest: &[u32]) -> Vec<f64> {
    let harvest: Vec<f64> = harvest.iter().map(|&h| f64::from(h)).collect();
    let mut budgets = vec![0.0; harvest.len()];
    let (capacity, start, end) = (figures.capacity.into(), figures.start.into(), figures.end.into());
    recursive_decomposition(capacity, start, end, &harvest, &mut budgets);
    budgets
}

/// Every implementation draws all there is, in budgets less than one unit away from the fractions.
fn compare(figures: Figures, harvest: &[u32]) {
    let source = fractions(figures, harvest);
    let all: u64 = harvest.iter().map(|&h| u64::from(h)).sum();
    for energy in under_test() {
        let mut budgets = vec![0; harvest.len()];
        let frames = Frames::unbounded(harvest);
        energy.plan(figures, frames, &mut budgets).expect("a valid request");
        let near = budgets
            .iter()
            .zip(&source)
            .all(|(&b, &f)| (f64::from(b) - f).abs() < 1.0 + 1e-6);
        assert!(near, "{}: {figures:?}, harvest {harvest:?}", energy.name());
        let drawn: u64 = budgets.iter().map(|&b| u64::from(b)).sum();
        assert_eq!(
            drawn,
            u64::from(figures.start) + all - u64::from(figures.end),
            "{}",
            energy.name()
        );
    }
}

#[test]
fn large_requests_of_every_family() {
    for frames in FRAMES {
        for family in FAMILIES {
            for size in SIZES {
                let mut random = Random::of_case(seed(), 7_000_000);
                let (figures, harvest) = request(family, size, frames, 1_000, &mut random);
                compare(figures, &harvest);
            }
        }
    }
}

#[test]
fn random_requests() {
    for case in 0..20_000 {
        let mut random = Random::of_case(seed(), 8_000_000 + case);
        let frames = 1 + random.up_to(40) as usize;
        let most = *random.pick(&[3, 20, 1_000]);
        let harvest = random.list(frames, most);
        let all: u64 = harvest.iter().map(|&h| u64::from(h)).sum();
        let capacity = random.up_to_u32(most * 6);
        let start = random.up_to_u32(capacity);
        let end = random.up_to(u64::from(capacity).min(u64::from(start) + all)) as u32;
        compare(Figures { capacity, start, end }, &harvest);
    }
}
