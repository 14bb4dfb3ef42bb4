//! What every trace keeps, whatever the budgets: no unit of energy is left out, no charge is above the capacity, and only
//! a full store loses, no more than the harvest.

use energy::{Energy, Linked};
use evidence::cases::Case;
use evidence::generate::any_trace;
use evidence::random::{seed, Random};
use evidence::reference::Reference;

/// What a test has seen: traces that were not refused, of them such that lose, and such below zero.
#[derive(Default)]
struct Seen {
    accepted: u32,
    losing: u32,
    below_zero: u32,
}

/// A trace, if it is not refused. After every frame start plus the harvests so far is the charge plus the budgets and
/// the losses so far, and the charge is at most the capacity; a frame that loses ends full, and loses no more than its
/// harvest.
fn assert_balanced(energy: &dyn Energy, case: &Case, seen: &mut Seen) {
    let (figures, harvest, budgets) = match case {
        Case::Trace {
            figures,
            harvest,
            budgets,
            ..
        } => (*figures, harvest, budgets),
        _ => panic!("not a trace: {case}"),
    };
    let (mut charges, mut losses) = (vec![0; harvest.len()], vec![0; harvest.len()]);
    if energy
        .trace(figures, harvest, budgets, &mut charges, &mut losses)
        .is_err()
    {
        return;
    }
    let (mut brought, mut gone) = (i128::from(figures.start), 0);
    for (i, &charge) in charges.iter().enumerate() {
        let named = || format!("{}, frame {}: {case}", energy.name(), i + 1);
        brought += i128::from(harvest[i]);
        gone += i128::from(budgets[i]) + i128::from(losses[i]);
        assert_eq!(brought, i128::from(charge) + gone, "{}", named());
        assert!(charge <= figures.capacity.into(), "{}", named());
        assert!(losses[i] <= harvest[i], "{}", named());
        assert!(losses[i] == 0 || charge == figures.capacity.into(), "{}", named());
    }
    seen.accepted += 1;
    seen.losing += u32::from(losses.iter().any(|&loss| loss > 0));
    seen.below_zero += u32::from(charges.iter().any(|&charge| charge < 0));
}

#[test]
fn traces_leave_no_unit_out_and_lose_only_when_full() {
    for energy in [&Linked as &dyn Energy, &Reference] {
        let mut seen = Seen::default();
        for number in 14_000_000..14_100_000 {
            assert_balanced(energy, &any_trace(&mut Random::of_case(seed(), number)), &mut seen);
        }
        let Seen {
            accepted,
            losing,
            below_zero,
        } = seen;
        assert!(accepted > 50_000, "{}: {accepted} traces", energy.name());
        assert!(losing > 1_000, "{}: {losing} traces that lose", energy.name());
        assert!(below_zero > 1_000, "{}: {below_zero} traces below zero", energy.name());
    }
}
