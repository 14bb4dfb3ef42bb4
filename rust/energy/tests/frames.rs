//! Frames with their bounds as `Option`s, and the lists in which they are kept and lent.

use energy::{Figures, Frame, Frames, OwnedFrames, Refusal, MAX_BOUND, MAX_FRAMES, NO_UPPER_END};

const DAY: Figures = Figures {
    capacity: 5,
    start: 2,
    end: 2,
};

fn frame(harvest: u32, least: Option<u32>, most: Option<u32>) -> Frame {
    Frame { harvest, least, most }
}

/// The answer to a request of one frame, which harvests 1 Wh.
fn plan(least: Option<u32>, most: Option<u32>) -> Result<Vec<u32>, Refusal> {
    let figures = Figures {
        capacity: 9,
        start: 5,
        end: 0,
    };
    let frames: OwnedFrames = [frame(1, least, most)].into_iter().collect();
    energy::plan(figures, frames.frames())
}

#[test]
fn frames_are_lent_as_lists() {
    let kept: OwnedFrames = [
        frame(6, None, Some(3)),
        frame(4, None, None),
        frame(0, Some(3), None),
        frame(5, Some(1), Some(1)),
    ]
    .into_iter()
    .collect();
    let lent = Frames {
        harvest: &[6, 4, 0, 5],
        least: &[0, 0, 3, 1],
        most: &[3, NO_UPPER_END, NO_UPPER_END, 1],
    };
    assert_eq!(kept.frames(), lent);
    assert_eq!((kept.len(), kept.is_empty()), (4, false));
}

#[test]
fn frames_are_given_back() {
    let day = [frame(6, None, Some(3)), frame(0, Some(3), None), Frame::unbounded(5)];
    let kept: OwnedFrames = day.into_iter().collect();
    assert!(kept.iter().eq(day) && kept.frames().iter().eq(day) && kept.frames().into_iter().eq(day));
    assert_eq!((&kept).into_iter().collect::<Vec<_>>(), day);
    assert_eq!(kept.frames().iter().collect::<OwnedFrames>(), kept);
    assert_eq!(kept.iter().len(), 3);
    let mut frames = kept.iter();
    frames.by_ref().for_each(drop);
    assert_eq!((frames.len(), frames.next()), (0, None));
}

#[test]
fn bounds_that_no_budget_misses_are_absent() {
    let said = [frame(1, Some(0), Some(u32::MAX)), frame(1, None, None)];
    let kept: OwnedFrames = said.into_iter().collect();
    assert_eq!(kept.iter().collect::<Vec<_>>(), [Frame::unbounded(1); 2]);
    assert_eq!(kept.frames(), Frames::unbounded(&[1, 1]));
    assert_eq!(plan(Some(0), Some(u32::MAX)), plan(None, None));
    // The other ends are bounds like any other.
    let ends = frame(1, Some(u32::MAX), Some(0));
    assert_eq!([ends].into_iter().collect::<OwnedFrames>().iter().next(), Some(ends));
}

#[test]
fn bounds_are_obeyed_or_refused() {
    assert_eq!(plan(None, None), Ok(vec![6]));
    assert_eq!(plan(None, Some(4)), Ok(vec![4]));
    assert_eq!(plan(None, Some(0)), Ok(vec![0]));
    assert_eq!(plan(Some(6), Some(MAX_BOUND)), Ok(vec![6]));
    assert_eq!(plan(Some(7), None), Err(Refusal::LeastsOutOfReach));
    assert_eq!(plan(Some(MAX_BOUND), None), Err(Refusal::LeastsOutOfReach));
    let bad = Err(Refusal::BadBounds { frame: 1 });
    assert_eq!(plan(Some(2), Some(1)), bad);
    assert_eq!(plan(Some(MAX_BOUND + 1), None), bad);
    assert_eq!(plan(None, Some(MAX_BOUND + 1)), bad);
    assert_eq!(plan(None, Some(u32::MAX - 1)), bad);
}

#[test]
fn frames_grow_and_may_be_none() {
    let mut kept = OwnedFrames::default();
    assert!(kept.is_empty() && kept.iter().next().is_none());
    assert_eq!(kept.frames(), Frames::default());
    assert_eq!(energy::plan(DAY, kept.frames()), Err(Refusal::NoFrames));
    kept.extend([Frame::unbounded(6), frame(4, Some(1), None)]);
    kept.extend(None);
    kept.extend(Some(Frame::unbounded(0)));
    assert_eq!(kept.frames().harvest, [6, 4, 0]);
    assert_eq!(kept.frames().least, [0, 1, 0]);
}

#[test]
fn more_than_the_most_frames_are_kept_and_refused() {
    let week: OwnedFrames = [Frame::unbounded(1); MAX_FRAMES].into_iter().collect();
    assert_eq!(
        energy::plan(DAY, week.frames()).map(|budgets| budgets.len()),
        Ok(MAX_FRAMES)
    );
    let more: OwnedFrames = week.iter().chain(Some(Frame::unbounded(1))).collect();
    assert_eq!(more.len(), MAX_FRAMES + 1);
    assert_eq!(energy::plan(DAY, more.frames()), Err(Refusal::TooManyFrames));
    let unbounded = Frames::unbounded(more.frames().harvest);
    assert_eq!(energy::plan(DAY, unbounded), Err(Refusal::TooManyFrames));
    assert_eq!(unbounded.iter().count(), MAX_FRAMES);
}

#[test]
fn lists_of_different_lengths_give_as_many_frames_as_the_shortest() {
    let lists = [&[1, 2, 3][..], &[1, 2], &[]];
    for (harvest, least, most) in [
        (0, 1, 1),
        (1, 0, 1),
        (1, 1, 0),
        (0, 0, 1),
        (2, 0, 0),
        (0, 2, 0),
        (0, 0, 2),
    ] {
        let frames = Frames {
            harvest: lists[harvest],
            least: lists[least],
            most: lists[most],
        };
        let shortest = lists[harvest].len().min(lists[least].len()).min(lists[most].len());
        assert_eq!((frames.iter().len(), frames.iter().count()), (shortest, shortest));
        let refusal = energy::plan(DAY, frames).unwrap_err();
        let expected = if frames.harvest.is_empty() {
            Refusal::NoFrames
        } else {
            Refusal::WrongLength
        };
        assert_eq!(refusal, expected);
    }
}
