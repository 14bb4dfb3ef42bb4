//! Refusals as errors: what they print, what they hand on, and that they go anywhere.

use energy::{Figures, Frames, NotRecorded, Refusal, Shift};
use std::error::Error;
use std::fmt::Debug;
use std::hash::Hash;

const OUT_OF_REACH: &str =
    "refused 9 1: the end charge is out of reach: start charge and all harvest are 1 Wh short of it";

/// Every refusal that has a name, with P where it has one.
fn named() -> Vec<Refusal> {
    let with_p = [6, 8, 9, 10, 21];
    let numbers = (1..=11).chain(20..=22);
    numbers
        .map(|number| Refusal::from_code(number, if with_p.contains(&number) { 4711 } else { 0 }))
        .collect()
}

/// A shift of which nothing is recorded.
fn shift() -> Shift {
    let figures = Figures {
        capacity: 5,
        start: 2,
        end: 2,
    };
    energy::start(figures, Frames::unbounded(&[6, 4, 0, 0, 5, 5])).expect("a good request")
}

#[test]
fn a_refusal_keeps_its_number_and_p() {
    for refusal in named() {
        assert!(!matches!(refusal, Refusal::Unknown { .. }));
        assert_eq!(Refusal::from_code(refusal.number(), refusal.p()), refusal);
        let sentence = refusal.sentence();
        assert_eq!(sentence.contains("4711"), refusal.p() != 0, "{sentence}");
    }
    for (number, p) in [(0, 0), (12, 0), (30, 1), (u32::MAX, u64::MAX), (1, 1), (22, 1)] {
        let unknown = Refusal::from_code(number, p);
        assert_eq!(unknown, Refusal::Unknown { number, p });
        assert_eq!((unknown.number(), unknown.p()), (number, p));
    }
}

#[test]
fn a_refusal_prints_number_p_and_sentence() {
    let refusal = Refusal::OutOfReach { missing: 1 };
    assert_eq!(refusal.line(), "refused 9 1");
    assert_eq!(refusal.to_string(), OUT_OF_REACH);
    for refusal in named() {
        let (number, p) = (refusal.number(), refusal.p());
        assert_eq!(refusal.line(), format!("refused {number} {p}"));
        assert_eq!(
            refusal.to_string(),
            format!("refused {number} {p}: {}", refusal.sentence())
        );
        assert!(!refusal.sentence().is_empty() && !refusal.to_string().contains('\n'));
        assert!(refusal.source().is_none());
    }
}

#[test]
fn a_recording_that_is_refused_prints_its_refusal_once() {
    let not = energy::record(shift(), 0, 9).unwrap_err();
    assert_eq!(
        not,
        NotRecorded {
            refusal: Refusal::UseTooGreat { excess: 7 },
            shift: shift()
        }
    );
    assert_eq!(
        not.to_string(),
        "refused 21 7: the use is 7 Wh above charge and harvest"
    );
    assert_eq!(not.to_string(), Refusal::from(not).to_string());
    assert!(not.source().is_none());
}

/// A refusal by way of `?`, of a plan or of a recording.
fn refused(by_recording: bool) -> Result<(), Box<dyn Error + Send + Sync>> {
    if by_recording {
        energy::record(shift(), 0, 9)?;
    }
    let figures = Figures {
        capacity: 5,
        start: 0,
        end: 5,
    };
    energy::plan(figures, Frames::unbounded(&[4]))?;
    Ok(())
}

/// The same where every call is refused by a `Refusal`.
fn refused_alike() -> Result<(), Refusal> {
    energy::record(shift(), 0, 9)?;
    Ok(())
}

#[test]
fn errors_are_handed_on() {
    let boxed = refused(false).unwrap_err();
    assert_eq!(boxed.to_string(), OUT_OF_REACH);
    assert_eq!(
        boxed.downcast_ref::<Refusal>(),
        Some(&Refusal::OutOfReach { missing: 1 })
    );
    let boxed = refused(true).unwrap_err();
    assert_eq!(boxed.downcast_ref::<NotRecorded>().map(|not| not.shift), Some(shift()));
    assert_eq!(refused_alike(), Err(Refusal::UseTooGreat { excess: 7 }));
}

fn goes_anywhere<T: Send + Sync + Unpin + 'static>() {}
fn is_an_error<T: Error + Copy + Eq + Hash + Send + Sync + 'static>() {}
fn is_an_answer<T: Clone + Debug + Eq + Hash + Send + Sync + 'static>() {}
fn is_a_value<T: Copy + Default + Debug + Eq + Hash + Send + Sync + 'static>() {}

#[test]
fn every_type_has_what_a_value_has() {
    is_an_error::<Refusal>();
    is_an_error::<NotRecorded>();
    is_an_answer::<energy::Trace>();
    is_an_answer::<energy::RestPlan>();
    is_an_answer::<energy::OwnedFrames>();
    goes_anywhere::<energy::OwnedFrames>();
    is_an_answer::<energy::Verdict>();
    is_an_answer::<energy::Rest>();
    is_a_value::<Figures>();
    is_a_value::<Frames<'static>>();
    is_a_value::<energy::Frame>();
    is_a_value::<energy::Linked>();
    is_a_value::<Shift>();
    is_a_value::<energy::Terms>();
    is_a_value::<energy::Present>();
    is_a_value::<energy::Totals>();
    is_a_value::<energy::Header>();
    goes_anywhere::<energy::FrameIter<'static>>();
}
