//! The free functions of a running shift against the trait, accepted and refused; which of several refusals is given.

mod order;

use energy::{Energy, Figures, Frames, Linked, Refusal, Rest, RestPlan, Shift, MAX_HARVEST, NO_UPPER_END};
use order::{answers, requests};

const HARVEST: [u32; 6] = [6, 4, 0, 0, 5, 5];
const DAY: Figures = Figures {
    capacity: 5,
    start: 2,
    end: 2,
};

/// The day's shift with these frames recorded, each by its harvest and use.
fn shift(recorded: &[(u32, u32)]) -> Shift {
    let started = energy::start(DAY, Frames::unbounded(&HARVEST)).expect("a good request");
    let record = |shift, &(harvest, used): &(u32, u32)| energy::record(shift, harvest, used).expect("a good recording");
    recorded.iter().fold(started, record)
}

/// A record that is none: more is recorded than there are frames.
fn no_shift() -> Shift {
    let mut none = shift(&[]);
    none.now.recorded = 7;
    none
}

/// What the trait says of the rest, with budgets of its own.
fn by_trait(shift: Shift, frames: Frames<'_>) -> Result<RestPlan, Refusal> {
    let mut day = [9; 6];
    let rest = Linked.shift_plan_rest(shift, frames, &mut day)?;
    let recorded = shift.now.recorded as usize;
    assert!(day[..recorded].iter().all(|&budget| budget == 9));
    Ok(RestPlan {
        rest,
        budgets: day[recorded..].to_vec(),
    })
}

#[test]
fn starts_are_the_traits() {
    for request in requests() {
        let started = Linked.shift_start(request.figures, request.frames());
        assert_eq!(energy::start(request.figures, request.frames()), started);
    }
    let given = answers(&requests(), |r| energy::start(r.figures, r.frames()));
    assert_eq!(given, "1 2 7 7 3 4 5 6:2 10:1 9:499997 11 ok");
    assert_eq!(order::of_header("energy_shift_start"), order::of_answers(&given));
    assert_eq!(order::of_documentation("pub fn start"), order::of_answers(&given));
    let started = shift(&[]);
    assert_eq!((started.terms.frames, started.now.charge), (6, 2));
}

#[test]
fn recordings_are_the_traits() {
    let over = MAX_HARVEST + 1;
    // Each has all the faults of those behind it; the last one has none.
    let recordings = [
        (no_shift(), over, u32::MAX),
        (shift(&[(0, 0); 6]), over, u32::MAX),
        (shift(&[(1, 3)]), over, u32::MAX),
        (shift(&[(1, 3)]), 0, 9),
        (shift(&[]), 10, 0),
    ];
    for (shift, harvest, used) in recordings {
        let next = energy::record(shift, harvest, used);
        assert_eq!(next, Linked.shift_record(shift, harvest, used));
        assert!(next.map_or_else(|not| not.shift == shift, |next| next.now.recorded == 1));
    }
    let given = answers(&recordings, |&(shift, harvest, used)| {
        energy::record(shift, harvest, used).map_err(Refusal::from)
    });
    assert_eq!(given, "22 20 6:2 21:9 ok");
    assert_eq!(order::of_header("energy_shift_record"), order::of_answers(&given));
    assert_eq!(order::of_documentation("pub fn record"), order::of_answers(&given));
    let now = energy::record(shift(&[]), 10, 0).unwrap().now;
    assert_eq!((now.recorded, now.charge), (1, 5));
    assert_eq!((now.totals.harvested, now.totals.used, now.totals.lost), (10, 0, 7));
}

#[test]
fn rests_are_the_traits() {
    let recordings = [(1, 3), (5, 2), (2, 2), (0, 3), (10, 4), (4, 8)];
    for recorded in 0..=6 {
        let shift = shift(&recordings[..recorded]);
        let plan = energy::plan_rest(shift, Frames::unbounded(&HARVEST));
        assert_eq!(plan, by_trait(shift, Frames::unbounded(&HARVEST)));
        assert_eq!(plan.is_err(), recorded == 6);
    }
    let plan = energy::plan_rest(shift(&recordings[..1]), Frames::unbounded(&HARVEST)).unwrap();
    assert_eq!((plan.rest, plan.budgets), (Rest::Planned, vec![2, 1, 1, 4, 4]));
}

#[test]
fn a_rest_within_bounds_is_planned_or_short() {
    let frames = |least, most| Frames {
        harvest: &HARVEST,
        least,
        most,
    };
    let (none, mosts) = ([0; 6], [NO_UPPER_END; 6]);
    let shift = shift(&[(0, 2)]);
    let planned = energy::plan_rest(shift, frames(&none, &[0, 9, 9, 9, 3, 3]));
    assert_eq!(planned, by_trait(shift, frames(&none, &[0, 9, 9, 9, 3, 3])));
    assert_eq!(planned.unwrap().rest, Rest::Planned);
    // Of the recorded frame nothing counts.
    let bad = energy::plan_rest(shift, frames(&[9, 0, 0, 0, 0, 0], &[1; 6]));
    assert_eq!(bad.map(|plan| plan.rest), Ok(Rest::Planned));
    let unfed = energy::plan_rest(shift, frames(&[0, 0, 9, 0, 0, 0], &mosts)).unwrap();
    assert_eq!((unfed.rest, unfed.budgets), (Rest::Short { missing: 0 }, vec![0; 5]));
    let dark = energy::plan_rest(shift, Frames::unbounded(&[0; 6])).unwrap();
    assert_eq!((dark.rest, dark.budgets), (Rest::Short { missing: 2 }, vec![0; 5]));
}

#[test]
fn rests_are_refused_in_their_order() {
    let over = [MAX_HARVEST + 1; 6];
    let (bad, most) = ([2; 6], [1; 6]);
    let frames = |harvest, least, most| Frames { harvest, least, most };
    let (whole, begun) = (shift(&[(0, 0); 6]), shift(&[(1, 3)]));
    // Each has all the faults of those behind it; the last one has none.
    let rests = [
        (no_shift(), frames(&over[1..], &bad, &most)),
        (whole, frames(&over[1..], &bad, &most)),
        (whole, frames(&over, &bad[1..], &most)),
        (whole, frames(&over, &bad, &most[1..])),
        (whole, frames(&over, &bad, &most)),
        (begun, frames(&over, &bad, &most)),
        (begun, frames(&HARVEST, &bad, &most)),
        (begun, frames(&HARVEST, &most, &most)),
    ];
    for (shift, frames) in rests {
        assert_eq!(energy::plan_rest(shift, frames), by_trait(shift, frames));
    }
    let given = answers(&rests, |&(shift, frames)| energy::plan_rest(shift, frames));
    assert_eq!(given, "22 7 7 7 20 6:2 10:2 ok");
    assert_eq!(order::of_header("energy_shift_plan_rest"), order::of_answers(&given));
    assert_eq!(order::of_documentation("pub fn plan_rest"), order::of_answers(&given));
    assert_eq!(energy::plan_rest(begun, Frames::default()), Err(Refusal::WrongLength));
    // With budgets that do not fit.
    let given = answers(&rests, |&(shift, frames)| {
        Linked.shift_plan_rest(shift, frames, &mut [0; 7])
    });
    assert_eq!(given, "22 7 7 7 7 7 7 7");
}

#[test]
fn parts_are_refused_in_their_order() {
    let budgets = [9, 1, 2, 3, 4, 5, 0];
    let (whole, begun) = (shift(&[(0, 0); 6]), shift(&[(1, 3)]));
    let parts = [(no_shift(), 7), (whole, 7), (whole, 6), (begun, 6)];
    let given = answers(&parts, |&(shift, length)| {
        Linked.shift_rest_part(shift, &budgets[..length])
    });
    assert_eq!(given, "22 7 20 ok");
    assert_eq!(order::of_header("energy_shift_rest_part"), order::of_answers(&given));
    assert_eq!(
        order::of_documentation("fn shift_rest_part<'a>"),
        order::of_answers(&given)
    );
    assert_eq!(Linked.shift_rest_part(begun, &budgets[..6]), Ok(&[1, 2, 3, 4, 5][..]));
}
