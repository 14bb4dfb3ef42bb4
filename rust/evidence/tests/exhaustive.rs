//! The reference against a search through all assignments on small requests, straight from document 01's definitions.

use energy::{Figures, Frames, Present, Refusal, Rest, Shift, Terms, Totals};
use evidence::lists::Lists;
use evidence::random::{seed, Random};
use evidence::reference::charge::{feasible, frames_from, unlimited, walk, FrameEnd, Store};
use evidence::reference::exhaustive::{feasible_assignments, most_energy, needed, plan};
use evidence::reference::limits::NO_UPPER_END;
use evidence::reference::tables::{all_tables, level_table, Table};
use evidence::reference::{needed as needs, plan as plans, refusals};
use evidence::{under_test, with_reference};

/// A small valid request of at most so many frames and so much harvest in all, with bounds in some of the frames or without;
/// it is within reach or not.
fn small_request(random: &mut Random, frames: u64, energy: u32) -> (Figures, Lists) {
    let frames = 1 + random.up_to(frames - 1);
    let capacity = random.up_to_u32(energy);
    let mut harvest = vec![0; frames as usize];
    for _ in 0..random.up_to(energy.into()) {
        harvest[random.up_to(frames - 1) as usize] += 1;
    }
    let figures = Figures {
        capacity,
        start: random.up_to_u32(capacity.min(4)),
        end: random.up_to_u32(capacity),
    };
    let mut lists = Lists::unbounded(harvest);
    if !random.one_in(3) {
        small_bounds(&mut lists, random);
    }
    (figures, lists)
}

/// Leasts of mostly 0 to 2 and mosts of mostly 0 to 4, each in a part of the frames.
fn small_bounds(lists: &mut Lists, random: &mut Random) {
    let (leasts, mosts) = (*random.pick(&[1, 2, 4, 99]), *random.pick(&[1, 2, 4, 99]));
    for (least, most) in lists.least.iter_mut().zip(&mut lists.most) {
        if random.one_in(leasts) {
            *least = *random.pick(&[0, 1, 1, 2, 2, 5]);
        }
        if random.one_in(mosts) {
            *most = *least + *random.pick(&[0, 0, 1, 2, 4]);
        }
    }
}

/// Everything that the plan is compared by: n -> min(n, level) for every level.
fn levels(most: usize) -> Vec<Table> {
    (0..=most).map(|level| level_table(most, level)).collect()
}

/// A line that names the request in a failure.
fn named(figures: Figures, lists: &Lists, case: u64) -> String {
    format!("case {case} of ENERGY_SEED={}: {figures:?}, {lists:?}", seed())
}

/// Whether a request is within reach, which small valid ones miss by 9 or 11 alone.
fn reached(figures: Figures, frames: Frames) -> bool {
    let refused = refusals::plan(figures, frames, frames.harvest.len());
    let missed = matches!(
        refused,
        Err(Refusal::OutOfReach { .. }) | Err(Refusal::LeastsOutOfReach)
    );
    assert!(refused.is_ok() || missed, "{refused:?}");
    refused.is_ok()
}

/// The plan by every implementation and by both independent methods against the search.
fn plans_are_named_by_all_levels(cases: std::ops::Range<u64>, frames: u64, energy: u32) {
    let mut planned = 0;
    for case in cases.clone() {
        let (figures, lists) = small_request(&mut Random::of_case(seed(), case), frames, energy);
        let case = named(figures, &lists, case);
        let (store, frames) = (Store::from(figures), lists.frames());
        let all = feasible_assignments(store, frames);
        assert_eq!(
            reached(figures, frames),
            !all.is_empty(),
            "feasible exactly when within reach: {case}"
        );
        let expected = if all.is_empty() {
            vec![77; lists.count()]
        } else {
            let named = plan(&all, &levels(most_energy(figures, &lists.harvest)));
            let named = named.unwrap_or_else(|| panic!("one assignment serves most at every level: {case}"));
            assert_eq!(plans::by_filling(store, frames), named, "filling: {case}");
            assert_eq!(plans::by_reserve(store, frames), named, "reserve: {case}");
            planned += 1;
            named
        };
        for energy in under_test() {
            let mut budgets = vec![77; lists.count()];
            assert_eq!(
                energy.plan(figures, frames, &mut budgets),
                refusals::plan(figures, frames, lists.count()),
                "{}: {case}",
                energy.name()
            );
            assert_eq!(budgets, expected, "{}: {case}", energy.name());
        }
    }
    let all = cases.count();
    assert!(all / 4 < planned && planned < all, "{planned} plans of {all} requests");
}

#[test]
fn the_plan_is_the_one_that_all_levels_name() {
    plans_are_named_by_all_levels(0..60_000, 5, 9);
}

#[test]
fn the_plan_is_the_one_that_all_levels_name_with_more_frames() {
    plans_are_named_by_all_levels(60_000..68_000, 7, 13);
}

#[test]
fn the_plan_is_best_for_every_qualifying_table_up_to_a_size() {
    for case in 100_000..110_000 {
        let (figures, lists) = small_request(&mut Random::of_case(seed(), case), 5, 7);
        if !reached(figures, lists.frames()) {
            continue;
        }
        let case = named(figures, &lists, case);
        let all = feasible_assignments(figures.into(), lists.frames());
        let most = most_energy(figures, &lists.harvest);
        let mut tables = all_tables(most, -2, 3);
        tables.extend(all_tables(most, 5, 1));
        assert!(tables.iter().all(Table::qualifies));
        let expected = plan(&all, &tables);
        assert!(expected.is_some(), "one assignment is best for every table: {case}");
        assert_eq!(
            expected,
            plan(&all, &levels(most)),
            "tables and levels name the same plan: {case}"
        );
    }
}

#[test]
fn the_needed_capacity_is_the_least_that_serves_every_table() {
    for case in 200_000..210_000 {
        let (figures, lists) = small_request(&mut Random::of_case(seed(), case), 5, 7);
        let (store, frames) = (Store::from(figures), lists.frames());
        let case = named(figures, &lists, case);
        let open_store = unlimited(store, &lists.harvest);
        let served = !feasible_assignments(open_store, frames).is_empty();
        let refused = refusals::needed(figures, frames);
        assert_eq!(
            refused.is_ok(),
            served,
            "feasible without limit exactly when not refused: {case}"
        );
        if !served {
            for energy in under_test() {
                let given = energy.needed(figures, frames).map(|_| ());
                assert_eq!(given, refused, "{}: {case}", energy.name());
            }
            continue;
        }
        let most = most_energy(figures, &lists.harvest);
        let least = needed(store, frames, &levels(most));
        assert_eq!(needs::by_definition(store, frames), least, "definition: {case}");
        let open = plans::by_filling(open_store, frames);
        let required = needs::by_requirement(store, &lists.harvest, &open);
        assert_eq!(required, least, "requirement: {case}");
        for energy in under_test() {
            assert_eq!(energy.needed(figures, frames), Ok(least), "{}: {case}", energy.name());
        }
        if most <= 7 {
            let tables = all_tables(most, 0, 3);
            assert_eq!(needed(store, frames, &tables), least, "by every table: {case}");
        }
    }
}

/// Without mosts a plan loses nothing and ends with the end charge. With them a frame that loses is at its most, no frame
/// can take one unit more, and no feasible assignment draws more in all. Its charges are the lowest of all assignments that
/// are best for every table.
#[test]
fn the_plan_wastes_only_what_mosts_refuse_and_its_charges_are_the_lowest() {
    let (mut unbounded, mut losing) = (0, 0);
    for case in 300_000..310_000 {
        let (figures, lists) = small_request(&mut Random::of_case(seed(), case), 5, 8);
        let (store, frames) = (Store::from(figures), lists.frames());
        if !reached(figures, frames) {
            continue;
        }
        let case = named(figures, &lists, case);
        let budgets = plans::by_filling(store, frames);
        assert!(feasible(store, frames, &budgets), "{case}");
        let plan: Vec<FrameEnd> = walk(store, frames.harvest, &budgets).collect();
        let loses = plan.iter().any(|after| after.lost > 0);
        if lists.most.iter().all(|&most| most == NO_UPPER_END) {
            assert_eq!(plan.last().map(|last| last.charge), Some(figures.end.into()), "{case}");
            assert!(!loses, "{case}");
            unbounded += 1;
        }
        for (i, after) in plan.iter().enumerate() {
            assert!(
                after.lost == 0 || budgets[i] == lists.most[i],
                "frame {}: {case}",
                i + 1
            );
        }
        for i in 0..budgets.len() {
            let mut more = budgets.clone();
            more[i] += 1;
            assert!(!feasible(store, frames, &more), "one more in frame {}: {case}", i + 1);
        }
        losing += u32::from(loses);
        let drawn: u32 = budgets.iter().sum();
        let tables = levels(most_energy(figures, &lists.harvest));
        for other in feasible_assignments(store, frames) {
            assert!(feasible(store, frames, &other), "{case}");
            assert!(other.iter().sum::<u32>() <= drawn, "{case}, other {other:?}");
            if tables
                .iter()
                .all(|table| table.earned(&other) == table.earned(&budgets))
            {
                let others = walk(store, frames.harvest, &other);
                assert!(
                    plan.iter().zip(others).all(|(a, b)| a.charge <= b.charge),
                    "{case}, other {other:?}"
                );
            }
        }
    }
    assert!(
        unbounded > 1_000 && losing > 500,
        "{unbounded} without mosts, {losing} that lose"
    );
}

/// A record of a shift of these frames, some recorded, at some charge.
fn small_shift(figures: Figures, frames: usize, random: &mut Random) -> Shift {
    let Figures { capacity, start, end } = figures;
    let recorded = random.up_to_u32(frames as u32 - 1);
    let charge = random.up_to_u32(if recorded == 0 { start } else { capacity });
    Shift {
        terms: Terms {
            frames: frames as u32,
            capacity,
            start,
            end,
        },
        now: Present {
            recorded,
            charge,
            totals: Totals {
                harvested: charge.saturating_sub(start).into(),
                used: start.saturating_sub(charge).into(),
                lost: 0,
            },
        },
    }
}

/// The rest of a shift by the search: its plan, or zeros and what the end charge misses with them.
fn searched_rest(shift: Shift, frames: Frames) -> (Rest, Vec<u32>) {
    let store = Store {
        capacity: shift.terms.capacity.into(),
        start: shift.now.charge.into(),
        end: shift.terms.end.into(),
    };
    let all = feasible_assignments(store, frames);
    if all.is_empty() {
        let zeros = vec![0; frames.harvest.len()];
        let last = walk(store, frames.harvest, &zeros).last().map_or(0, |end| end.charge);
        let missing = (i64::from(shift.terms.end) - last).max(0) as u64;
        return (Rest::Short { missing }, zeros);
    }
    let most = store.start as usize + frames.harvest.iter().sum::<u32>() as usize;
    (
        Rest::Planned,
        plan(&all, &levels(most)).expect("one serves most at every level"),
    )
}

#[test]
fn the_rest_is_the_searched_plan_or_short_of_what_zeros_miss() {
    let mut seen = [0; 3];
    for case in 400_000..420_000 {
        let mut random = Random::of_case(seed(), case);
        let (figures, lists) = small_request(&mut random, 5, 8);
        let shift = small_shift(figures, lists.count(), &mut random);
        let recorded = shift.now.recorded as usize;
        let (rest, budgets) = searched_rest(shift, frames_from(lists.frames(), recorded));
        seen[match rest {
            Rest::Planned => 0,
            Rest::Short { missing: 0 } => 1,
            Rest::Short { .. } => 2,
        }] += 1;
        let expected = [vec![77; recorded], budgets].concat();
        for energy in with_reference() {
            let mut budgets = vec![77; lists.count()];
            let given = energy.shift_plan_rest(shift, lists.frames(), &mut budgets);
            let case = format!("{}, {shift:?}: {}", energy.name(), named(figures, &lists, case));
            assert_eq!(given, Ok(rest), "{case}");
            assert_eq!(budgets, expected, "{case}");
        }
    }
    assert!(seen.iter().all(|&count| count > 500), "{seen:?}");
}

#[test]
fn an_end_charge_out_of_reach_is_refused_with_what_is_missing() {
    let figures = Figures {
        capacity: 8,
        start: 3,
        end: 8,
    };
    assert_eq!(
        refusals::plan(figures, Frames::unbounded(&[4]), 1),
        Err(Refusal::OutOfReach { missing: 1 })
    );
}
