//! Large requests of every family, with bounds and without, against the independent planners.

use energy::Figures;
use evidence::cases::Case;
use evidence::families::{bounded, full, request, FAMILIES, FRAMES, FULL, SIZES};
use evidence::lists::Lists;
use evidence::random::{seed, Random};
use evidence::reference::limits::MAX_FRAMES;
use evidence::reference::needed::needed;
use evidence::reference::plan::{by_filling, by_reserve};
use evidence::reference::refusals;
use evidence::reference::shift::PlanMethod;
use evidence::under_test;

/// Plan and needed capacity by every implementation against an independent method.
fn compare(figures: Figures, lists: &Lists, method: PlanMethod) {
    let plan = method(figures.into(), lists.frames());
    let capacity = needed(figures.into(), lists.frames());
    for energy in under_test() {
        let again = |case: Case| {
            format!(
                "{}; run it again: ENERGY_CASE='{case}' rust/cargo test -p evidence --test rerun",
                energy.name()
            )
        };
        let mut budgets = vec![0; lists.count()];
        let same = energy.plan(figures, lists.frames(), &mut budgets) == Ok(()) && budgets == plan;
        let case = Case::Plan {
            figures,
            lists: lists.clone(),
            budgets: lists.count(),
        };
        assert!(same, "{}", again(case));
        let same = energy.needed(figures, lists.frames()) == Ok(capacity);
        let case = Case::Needed {
            figures,
            lists: lists.clone(),
        };
        assert!(same, "{}", again(case));
    }
}

/// Mosts in every frame, none above the budget without bounds: energy is lost, or left at the end.
fn tight(figures: Figures, harvest: Vec<u32>, random: &mut Random) -> Lists {
    let mut lists = Lists::unbounded(harvest);
    let open = by_reserve(figures.into(), lists.frames());
    lists.most = open.iter().map(|&budget| random.up_to_u32(budget)).collect();
    lists
}

/// The request without bounds, with random ones, and with mosts that no plan without bounds keeps.
fn compare_all(figures: Figures, harvest: Vec<u32>, method: PlanMethod, random: &mut Random) {
    compare(figures, &Lists::unbounded(harvest.clone()), method);
    compare(figures, &bounded(figures, harvest.clone(), random), method);
    compare(figures, &tight(figures, harvest, random), method);
}

/// Every family and size at a number of frames, some also with start and end at the capacity.
fn families(frames: usize, most: u32, method: PlanMethod) {
    for (i, family) in FAMILIES.into_iter().enumerate() {
        for size in SIZES {
            let mut random = Random::of_case(seed(), 4_000_000 + i as u64);
            let (figures, harvest) = request(family, size, frames, most, &mut random);
            if FULL.contains(&family) {
                compare_all(full(figures), harvest.clone(), method, &mut random);
            }
            compare_all(figures, harvest, method, &mut random);
        }
    }
}

#[test]
fn a_day_half_a_week_and_a_week() {
    for frames in FRAMES {
        for most in [7, 1_000, 400_000] {
            families(frames, most, by_filling);
        }
    }
}

#[test]
fn a_week_by_another_method() {
    families(MAX_FRAMES, 400_000, by_reserve);
}

#[test]
fn random_large_requests() {
    for case in 0..40 {
        let mut random = Random::of_case(seed(), 5_000_000 + case);
        let frames = 100 + random.up_to(MAX_FRAMES as u64 - 100) as usize;
        let most = *random.pick(&[2, 50, 1_000, 400_000]);
        let (family, size) = (*random.pick(&FAMILIES), *random.pick(&SIZES));
        let (figures, harvest) = request(family, size, frames, most, &mut random);
        compare_all(figures, harvest, by_reserve, &mut random);
    }
}

/// Random figures besides the families' own: any capacity, start and end.
#[test]
fn random_figures_with_large_requests() {
    for case in 0..40 {
        let mut random = Random::of_case(seed(), 6_000_000 + case);
        let frames = 100 + random.up_to(MAX_FRAMES as u64 - 100) as usize;
        let most = *random.pick(&[2, 50, 1_000, 400_000]);
        let harvest = random.pick(&FAMILIES).harvest(frames, most, &mut random);
        let capacity = random.up_to_u32(most * 40);
        let all: u64 = harvest.iter().map(|&h| u64::from(h)).sum();
        let start = random.up_to_u32(capacity);
        let end = random.up_to(u64::from(capacity).min(u64::from(start) + all)) as u32;
        compare_all(Figures { capacity, start, end }, harvest, by_filling, &mut random);
    }
}

/// The random bounds of the families leave every request within reach, and a good part of the budgets at a bound that the
/// plan without bounds does not keep.
#[test]
fn random_bounds_bind() {
    let (mut frames, mut bound) = (0, 0);
    for (i, family) in FAMILIES.into_iter().enumerate() {
        for size in SIZES {
            let mut random = Random::of_case(seed(), 9_000_000 + i as u64);
            let (figures, harvest) = request(family, size, MAX_FRAMES, 1_000, &mut random);
            let open = by_reserve(figures.into(), Lists::unbounded(harvest.clone()).frames());
            let lists = bounded(figures, harvest, &mut random);
            assert_eq!(
                refusals::plan(figures, lists.frames(), MAX_FRAMES),
                Ok(()),
                "{family:?}"
            );
            frames += MAX_FRAMES;
            let beyond = |&i: &usize| open[i] < lists.least[i] || lists.most[i] < open[i];
            bound += (0..MAX_FRAMES).filter(beyond).count();
        }
    }
    assert!(frames < 4 * bound && 2 * bound < frames, "{bound} of {frames}");
}
