//! Document 01's cases worked by hand, its limits and losses as document 02 has them, through every implementation. Those
//! of bounds: `bounds.rs`.

use energy::{Energy, Figures, Frames, Present, Refusal, Rest, Shift, Terms, Totals, Verdict, LISTING_BYTES};
use evidence::reference::limits::{MAX_FILE_BYTES, NO_UPPER_END};
use evidence::with_reference;

/// The harvests of the listing.
const LISTING: [u32; 6] = [6, 4, 0, 0, 5, 5];

/// What the plan program prints for the listing's request.
const LISTED: &str = "frames 6 capacity 5 needed 6\n\
    1 4 4 0\n2 3 5 0\n3 3 2 0\n4 2 0 0\n5 4 1 0\n6 4 2 0\n\
    worth 320 480 100\n";

fn figures(capacity: u32, start: u32, end: u32) -> Figures {
    Figures { capacity, start, end }
}

/// The plan of a request, or its refusal.
fn plan(energy: &dyn Energy, figures: Figures, harvest: &[u32]) -> Result<Vec<u32>, Refusal> {
    let mut budgets = vec![0; harvest.len()];
    let frames = Frames::unbounded(harvest);
    energy.plan(figures, frames, &mut budgets).map(|()| budgets)
}

/// The words of a file as 32-bit numbers.
fn words(file: &[u8]) -> Vec<u32> {
    file.chunks(4)
        .map(|bytes| u32::from_le_bytes(bytes.try_into().expect("whole words")))
        .collect()
}

#[test]
fn plans() {
    for energy in with_reference() {
        let plan = |capacity, start, end, harvest: &[u32]| plan(&*energy, figures(capacity, start, end), harvest);
        assert_eq!(plan(5, 2, 2, &LISTING), Ok(vec![4, 3, 3, 2, 4, 4]), "{}", energy.name());
        assert_eq!(plan(6, 2, 2, &LISTING), Ok(vec![3, 3, 3, 3, 4, 4]), "{}", energy.name());
        assert_eq!(plan(9, 0, 0, &[1, 2]), Ok(vec![1, 2]), "{}", energy.name());
        assert_eq!(plan(9, 0, 0, &[2, 1]), Ok(vec![2, 1]), "{}", energy.name());
        assert_eq!(plan(10, 10, 0, &[0]), Ok(vec![10]), "{}", energy.name());
        assert_eq!(plan(8, 3, 7, &[4]), Ok(vec![0]), "{}", energy.name());
        assert_eq!(
            plan(8, 3, 8, &[4]),
            Err(Refusal::OutOfReach { missing: 1 }),
            "{}",
            energy.name()
        );
        assert_eq!(plan(0, 0, 0, &[5]), Ok(vec![5]), "{}", energy.name());
    }
}

#[test]
fn needed_capacities() {
    for energy in with_reference() {
        let needed = |capacity, start, end, harvest: &[u32]| {
            energy.needed(figures(capacity, start, end), Frames::unbounded(harvest))
        };
        assert_eq!(needed(5, 2, 2, &LISTING), Ok(6), "{}", energy.name());
        assert_eq!(needed(9, 0, 0, &[1, 2]), Ok(0), "{}", energy.name());
        assert_eq!(needed(10, 10, 0, &[0]), Ok(10), "{}", energy.name());
    }
}

#[test]
fn a_supplied_list_below_zero() {
    for energy in with_reference() {
        let (mut charges, mut losses) = ([0; 6], [9; 6]);
        let budgets = [4, 4, 4, 4, 2, 2];
        let verdict = energy.trace(figures(22, 2, 2), &LISTING, &budgets, &mut charges, &mut losses);
        assert_eq!(verdict, Ok(Verdict::BelowZero { frame: 4 }), "{}", energy.name());
        assert_eq!(charges, [4, 4, 0, -4, -1, 2], "{}", energy.name());
        assert_eq!(losses, [0; 6], "{}", energy.name());
    }
}

#[test]
fn a_supplied_list_of_zeros_loses_what_the_store_cannot_take() {
    for energy in with_reference() {
        let (mut charges, mut losses) = ([0; 6], [9; 6]);
        let verdict = energy.trace(figures(5, 2, 2), &LISTING, &[0; 6], &mut charges, &mut losses);
        assert_eq!(verdict, Ok(Verdict::Feasible), "{}", energy.name());
        assert_eq!(charges, [5; 6], "{}", energy.name());
        assert_eq!(losses, [3, 4, 0, 0, 5, 5], "{}", energy.name());
    }
}

#[test]
fn a_store_that_was_below_zero_keeps_no_more_than_its_capacity() {
    for energy in with_reference() {
        let (mut charges, mut losses) = ([0; 2], [9; 2]);
        let verdict = energy.trace(figures(5, 0, 0), &[0, 10], &[3, 0], &mut charges, &mut losses);
        assert_eq!(verdict, Ok(Verdict::BelowZero { frame: 1 }), "{}", energy.name());
        assert_eq!((charges, losses), ([-3, 5], [0, 2]), "{}", energy.name());
    }
}

#[test]
fn recordings() {
    for energy in with_reference() {
        let shift = energy
            .shift_start(figures(5, 4, 0), Frames::unbounded(&[0]))
            .expect("a valid request");
        let record = |used| {
            energy
                .shift_record(shift, 3, used)
                .map(|s| (s.now.charge, s.now.totals.lost))
                .map_err(|not| not.refusal)
        };
        assert_eq!(record(7), Ok((0, 0)), "{}", energy.name());
        assert_eq!(record(8), Err(Refusal::UseTooGreat { excess: 1 }), "{}", energy.name());
        assert_eq!(record(1), Ok((5, 1)), "{}", energy.name());
    }
}

#[test]
fn the_rest_after_a_recording() {
    for energy in with_reference() {
        let frames = Frames::unbounded(&LISTING);
        let shift = energy.shift_start(figures(5, 2, 2), frames).expect("a valid request");
        let shift = energy.shift_record(shift, 1, 3).expect("a frame to record");
        let expected = Shift {
            terms: Terms {
                frames: 6,
                capacity: 5,
                start: 2,
                end: 2,
            },
            now: Present {
                recorded: 1,
                charge: 0,
                totals: Totals {
                    harvested: 1,
                    used: 3,
                    lost: 0,
                },
            },
        };
        assert_eq!(shift, expected, "{}", energy.name());
        let mut budgets = [4, 3, 3, 2, 4, 4];
        assert_eq!(
            energy.shift_plan_rest(shift, frames, &mut budgets),
            Ok(Rest::Planned),
            "{}",
            energy.name()
        );
        assert_eq!(budgets, [4, 2, 1, 1, 4, 4], "{}", energy.name());
        assert_eq!(
            energy.shift_rest_part(shift, &budgets),
            Ok(&budgets[1..]),
            "{}",
            energy.name()
        );
    }
}

#[test]
fn words_of_a_file() {
    for energy in with_reference() {
        let mut file = [0xee; 28];
        assert_eq!(
            energy.write(figures(9, 0, 0), Frames::unbounded(&[1, 2]), &mut file),
            Ok(24),
            "{}",
            energy.name()
        );
        let expected = [9, 0, 0, 0x4000_0001, 0x4000_0002, 0xc000_0002, 0xeeee_eeee];
        assert_eq!(words(&file), expected, "{}", energy.name());
    }
}

#[test]
fn the_listing() {
    for energy in with_reference() {
        let mut file = [0; 40];
        assert_eq!(
            energy.write(figures(5, 2, 2), Frames::unbounded(&LISTING), &mut file),
            Ok(40),
            "{}",
            energy.name()
        );
        assert_eq!(listing(&*energy, &file), LISTED, "{}", energy.name());
        assert_eq!(listing(&*energy, &file[..39]), "refused 8 9\n", "{}", energy.name());
        assert_eq!(listing(&*energy, &[]), "refused 8 0\n", "{}", energy.name());
        let too_long = [0; MAX_FILE_BYTES + 1];
        assert_eq!(listing(&*energy, &too_long), "refused 2 0\n", "{}", energy.name());
    }
}

/// The limits, of frames and bytes as document 02 has them: each passes, and one more is refused.
#[test]
fn the_limits() {
    for energy in with_reference() {
        let plan = |harvest: &[u32]| plan(&*energy, figures(9, 0, 0), harvest).map(|budgets| budgets.len());
        assert_eq!(plan(&[400_000]), Ok(1), "{}", energy.name());
        assert_eq!(
            plan(&[400_001]),
            Err(Refusal::HarvestAboveLimit { frame: 1 }),
            "{}",
            energy.name()
        );
        assert_eq!(plan(&[1; 672]), Ok(672), "{}", energy.name());
        assert_eq!(plan(&[1; 673]), Err(Refusal::TooManyFrames), "{}", energy.name());

        let mut file = [0; 8_081];
        let bounded = Frames {
            harvest: &[1; 672],
            least: &[1; 672],
            most: &[NO_UPPER_END - 1; 672],
        };
        let written = energy.write(figures(9, 0, 0), bounded, &mut file);
        assert_eq!(written, Err(Refusal::BadBounds { frame: 1 }), "{}", energy.name());
        let most = &[536_870_911; 672];
        let written = energy.write(figures(9, 0, 0), Frames { most, ..bounded }, &mut file);
        assert_eq!(written, Ok(8_080), "{}", energy.name());
        let read = |bytes: usize| {
            let [mut harvest, mut least, mut most] = [[0; 672]; 3];
            let header = energy.read(&file[..bytes], &mut harvest, &mut least, &mut most);
            header.map(|header| header.frames)
        };
        assert_eq!(read(8_080), Ok(672), "{}", energy.name());
        assert_eq!(read(8_081), Err(Refusal::TooManyFrames), "{}", energy.name());

        let recorded = |frames: u32| match energy.shift_record(unrecorded(frames), 1, 1) {
            Ok(shift) => Ok(shift.now.recorded),
            Err(not) => Err(not.refusal),
        };
        assert_eq!(recorded(672), Ok(1), "{}", energy.name());
        assert_eq!(recorded(673), Err(Refusal::NotShift), "{}", energy.name());
    }
}

/// The record of an empty store, of so many frames, none of them recorded.
fn unrecorded(frames: u32) -> Shift {
    let terms = Terms {
        frames,
        capacity: 9,
        start: 0,
        end: 0,
    };
    Shift {
        terms,
        now: Present::default(),
    }
}

/// The text that an implementation lists.
fn listing(energy: &dyn Energy, file: &[u8]) -> String {
    let mut text = vec![0; LISTING_BYTES];
    let bytes = energy.listing(file, &mut text);
    String::from_utf8(text[..bytes].to_vec()).expect("a listing is plain text")
}
