//! The limits of the binding are the library's.

use energy::{Energy, Figures, Frames, Linked, Refusal};
use energy::{MAX_BOUND, MAX_CAPACITY, MAX_FILE_BYTES, MAX_FRAMES, MAX_HARVEST, NO_UPPER_END};

fn figures(capacity: u32) -> Figures {
    Figures {
        capacity,
        start: 0,
        end: 0,
    }
}

fn plan(capacity: u32, harvest: &[u32]) -> Result<(), Refusal> {
    let frames = Frames::unbounded(harvest);
    Linked.plan(figures(capacity), frames, &mut vec![0; harvest.len()])
}

/// A frame in which nothing is harvested, with its bounds, behind one without.
fn bounded(least: u32, most: u32) -> Result<(), Refusal> {
    let frames = Frames {
        harvest: &[0, 0],
        least: &[0, least],
        most: &[NO_UPPER_END, most],
    };
    Linked.plan(figures(1), frames, &mut [0; 2])
}

#[test]
fn limits_are_the_librarys() {
    assert_eq!(plan(MAX_CAPACITY, &[1]), Ok(()));
    assert_eq!(plan(MAX_CAPACITY + 1, &[1]), Err(Refusal::CapacityAboveLimit));
    assert_eq!(plan(1, &[1, MAX_HARVEST]), Ok(()));
    assert_eq!(
        plan(1, &[1, MAX_HARVEST + 1]),
        Err(Refusal::HarvestAboveLimit { frame: 2 })
    );
    assert_eq!(plan(1, &[1; MAX_FRAMES]), Ok(()));
    assert_eq!(plan(1, &[1; MAX_FRAMES + 1]), Err(Refusal::TooManyFrames));
    assert_eq!(bounded(0, MAX_BOUND), Ok(()));
    assert_eq!(bounded(0, NO_UPPER_END), Ok(()));
    assert_eq!(bounded(MAX_BOUND, MAX_BOUND), Err(Refusal::LeastsOutOfReach));
    for (least, most) in [
        (1, 0),
        (0, MAX_BOUND + 1),
        (0, NO_UPPER_END - 1),
        (MAX_BOUND + 1, NO_UPPER_END),
    ] {
        assert_eq!(bounded(least, most), Err(Refusal::BadBounds { frame: 2 }));
    }
    let read = |bytes: usize| Linked.read(&vec![0xff; bytes], &mut [0; 1], &mut [0; 1], &mut [0; 1]);
    assert_eq!(read(MAX_FILE_BYTES), Err(Refusal::BadWord { word: 0 }));
    assert_eq!(read(MAX_FILE_BYTES + 1), Err(Refusal::TooManyFrames));
}
