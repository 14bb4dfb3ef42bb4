//! Cases around the limits, compared with the reference, whose own limits are in `worked.rs`.

use energy::{Energy, Figures, Present, Refusal, Shift, Terms, Totals, Verdict, LISTING_BYTES};
use evidence::cases::{Call, Case};
use evidence::check::expect;
use evidence::lists::Lists;
use evidence::reference::limits::{MAX_BOUND, MAX_CAPACITY, MAX_FILE_BYTES, MAX_FRAMES, MAX_HARVEST, NO_UPPER_END};
use evidence::reference::wordfile::file_bytes;
use evidence::reference::Reference;
use evidence::{under_test, with_reference};

/// The case through every implementation, compared with the reference.
fn compare(case: Case) {
    for energy in under_test() {
        expect(&*energy, &case);
    }
}

fn figures(capacity: u32, start: u32, end: u32) -> Figures {
    Figures { capacity, start, end }
}

#[test]
fn the_bindings_limits_are_the_references() {
    assert_eq!(energy::MAX_FRAMES, MAX_FRAMES);
    assert_eq!(energy::MAX_FILE_BYTES, MAX_FILE_BYTES);
    assert_eq!(energy::MAX_HARVEST, MAX_HARVEST);
    assert_eq!(energy::MAX_CAPACITY, MAX_CAPACITY);
    assert_eq!(energy::MAX_BOUND, MAX_BOUND);
    assert_eq!(energy::NO_UPPER_END, NO_UPPER_END);
    assert_eq!(
        file_bytes(bounded(vec![0; MAX_FRAMES]).frames()),
        MAX_FILE_BYTES,
        "the longest file is that of the most frames, each with its least and most"
    );
}

/// Frames that all have a least and a most.
fn bounded(harvest: Vec<u32>) -> Lists {
    Lists {
        least: vec![1; harvest.len()],
        most: vec![MAX_BOUND; harvest.len()],
        harvest,
    }
}

/// The calls of a request that are lent its bounds, each with lists of these lengths but the file's room.
fn compare_all(figures: Figures, lists: &Lists) {
    let (count, lists) = (lists.count(), lists.clone());
    let calls = vec![
        Call::Record { harvest: 5, used: 8 },
        Call::Rest {
            lists: lists.clone(),
            budgets: count,
        },
        Call::Part { budgets: count },
    ];
    for case in [
        Case::Plan {
            figures,
            lists: lists.clone(),
            budgets: count,
        },
        Case::Needed {
            figures,
            lists: lists.clone(),
        },
        Case::Write {
            figures,
            lists: lists.clone(),
            room: MAX_FILE_BYTES,
        },
        Case::Run { figures, lists, calls },
    ] {
        compare(case);
    }
}

#[test]
fn harvests_around_the_limit() {
    for harvest in [vec![MAX_HARVEST], vec![0, MAX_HARVEST + 1, u32::MAX], vec![u32::MAX; 3]] {
        compare_all(figures(9, 0, 0), &Lists::unbounded(harvest));
    }
}

#[test]
fn bounds_around_the_limit() {
    let rich = figures(MAX_CAPACITY, MAX_CAPACITY, 0);
    let numbers = [
        0,
        1,
        MAX_BOUND - 1,
        MAX_BOUND,
        MAX_BOUND + 1,
        1 << 30,
        NO_UPPER_END - 1,
        NO_UPPER_END,
    ];
    for least in numbers {
        for most in numbers {
            for figures in [rich, figures(9, 3, 3)] {
                let mut lists = Lists::unbounded(vec![5, 7, 6]);
                lists.least[1] = least;
                lists.most[1] = most;
                compare_all(figures, &lists);
                lists.least[0] = most;
                lists.most[2] = least;
                compare_all(figures, &lists);
            }
        }
    }
}

#[test]
fn frames_around_the_limit() {
    for count in [0, 1, MAX_FRAMES, MAX_FRAMES + 1, 4 * MAX_FRAMES] {
        let harvest = vec![7; count];
        let figures = figures(9, 3, 3);
        compare_all(figures, &Lists::unbounded(harvest.clone()));
        compare_all(figures, &bounded(harvest.clone()));
        compare(Case::Trace {
            figures,
            harvest,
            budgets: vec![u32::MAX; count],
            charges: count,
            losses: count,
        });
        compare(Case::Grade {
            budgets: vec![u32::MAX; count],
        });
    }
}

/// 7 for each list by itself, one too short and one too long, also where the frames or the figures are refused.
#[test]
fn each_list_of_a_request_has_an_entry_for_each_frame() {
    for count in [0, 1, 3, MAX_FRAMES, MAX_FRAMES + 1] {
        for capacity in [9, MAX_CAPACITY + 1] {
            for other in [0, 1, 2, count.saturating_sub(1), count, count + 1] {
                let figures = figures(capacity, 3, 3);
                let mut lists = Lists::unbounded(vec![7; count]);
                lists.least.resize(other, 0);
                compare_all(figures, &lists);
                let mut lists = Lists::unbounded(vec![7; count]);
                lists.most.resize(other, NO_UPPER_END);
                compare_all(figures, &lists);
            }
        }
    }
}

/// The same for the rest of a shift: each of its lists by itself, before 20 and what the lists hold.
#[test]
fn each_list_of_a_rest_has_an_entry_for_each_frame() {
    let terms = Terms {
        frames: 3,
        capacity: 9,
        start: 3,
        end: 3,
    };
    for recorded in [0, 3] {
        let now = Present {
            recorded,
            charge: 3,
            ..Present::default()
        };
        for place in 0..4 {
            for length in [0, 2, 3, 4] {
                let mut lengths = [3; 4];
                lengths[place] = length;
                let [harvest, least, most, budgets] = lengths;
                let lists = Lists {
                    harvest: vec![7; harvest],
                    least: vec![2; least],
                    most: vec![1; most],
                };
                compare(Case::On {
                    shift: Shift { terms, now },
                    call: Call::Rest { lists, budgets },
                });
            }
        }
    }
}

/// 7 before every figure: the room is that of the words of the lists as they are lent, bad bounds too.
#[test]
fn the_room_of_a_file_is_that_of_its_words() {
    for (least, most) in [(0, NO_UPPER_END), (1, NO_UPPER_END), (0, 0), (1, 1), (NO_UPPER_END, 0)] {
        for capacity in [9, MAX_CAPACITY + 1] {
            let mut lists = Lists::unbounded(vec![7; 3]);
            lists.least[1] = least;
            lists.most[2] = most;
            let enough = file_bytes(lists.frames());
            for room in [0, 1, enough - 4, enough - 1, enough, enough + 1] {
                compare(Case::Write {
                    figures: figures(capacity, 3, 3),
                    lists: lists.clone(),
                    room,
                });
            }
        }
    }
}

#[test]
fn records_around_the_limit() {
    for frames in [MAX_FRAMES, MAX_FRAMES + 1] {
        let terms = Terms {
            frames: frames as u32,
            capacity: 9,
            start: 3,
            end: 3,
        };
        let now = Present {
            charge: 3,
            ..Present::default()
        };
        for call in [
            Call::Record { harvest: 5, used: 8 },
            Call::Rest {
                lists: bounded(vec![7; frames]),
                budgets: frames,
            },
            Call::Part { budgets: frames },
        ] {
            compare(Case::On {
                shift: Shift { terms, now },
                call,
            });
        }
    }
}

#[test]
fn the_figures_at_their_limits() {
    let most = MAX_CAPACITY;
    for (capacity, start, end) in [
        (most, most, most),
        (most, most, 0),
        (most, 0, most),
        (most + 1, 0, 0),
        (u32::MAX, u32::MAX, u32::MAX),
        (5, 6, 6),
        (5, 5, 6),
        (5, 5, 5),
        (0, 0, 0),
        (0, 1, 0),
        (0, 0, 1),
    ] {
        for harvest in [
            vec![0],
            vec![MAX_HARVEST; 5],
            vec![MAX_HARVEST; MAX_FRAMES],
            vec![0, MAX_HARVEST + 1],
        ] {
            let figures = figures(capacity, start, end);
            compare_all(figures, &Lists::unbounded(harvest.clone()));
            compare_all(figures, &bounded(harvest));
        }
    }
}

#[test]
fn the_needed_capacity_may_exceed_the_limit_on_capacities() {
    let mut harvest = vec![MAX_HARVEST; MAX_FRAMES / 2];
    harvest.resize(MAX_FRAMES, 0);
    let figures = figures(0, MAX_CAPACITY, MAX_CAPACITY);
    let lists = Lists::unbounded(harvest);
    for energy in under_test() {
        let needed = energy.needed(figures, lists.frames()).expect("a valid request");
        assert!(needed > u64::from(MAX_CAPACITY), "{}: {needed}", energy.name());
    }
    compare(Case::Needed { figures, lists });
}

#[test]
fn charges_far_below_zero() {
    compare(Case::Trace {
        figures: figures(MAX_CAPACITY, 0, 0),
        harvest: vec![0; MAX_FRAMES],
        budgets: vec![u32::MAX; MAX_FRAMES],
        charges: MAX_FRAMES,
        losses: MAX_FRAMES,
    });
}

#[test]
fn the_largest_loss_is_the_largest_harvest() {
    let (harvest, budgets) = ([MAX_HARVEST; MAX_FRAMES], [0; MAX_FRAMES]);
    for capacity in [0, MAX_CAPACITY] {
        let full = figures(capacity, capacity, capacity);
        for energy in with_reference() {
            let (mut charges, mut losses) = ([0; MAX_FRAMES], [0; MAX_FRAMES]);
            let verdict = energy.trace(full, &harvest, &budgets, &mut charges, &mut losses);
            assert_eq!(verdict, Ok(Verdict::Feasible), "{}", energy.name());
            assert_eq!(charges, [i64::from(capacity); MAX_FRAMES], "{}", energy.name());
            assert_eq!(losses, [MAX_HARVEST; MAX_FRAMES], "{}", energy.name());
        }
    }
}

#[test]
fn each_list_of_a_trace_has_an_entry_for_each_frame() {
    for lengths in [
        [2, 3, 3],
        [3, 2, 3],
        [3, 3, 2],
        [4, 3, 3],
        [3, 4, 3],
        [3, 3, 4],
        [3, 3, 0],
    ] {
        let [budgets, charges, losses] = lengths;
        for capacity in [9, MAX_CAPACITY + 1] {
            compare(Case::Trace {
                figures: figures(capacity, 3, 3),
                harvest: vec![7; 3],
                budgets: vec![0; budgets],
                charges,
                losses,
            });
        }
    }
}

/// A file whose frames have these words, so many times, cut or filled up to so many bytes.
fn sized(frame: &[u32], frames: usize, bytes: usize) -> Vec<u8> {
    let mut words = vec![0, 0, 0];
    (0..frames).for_each(|_| words.extend(frame));
    words.push(3 << 30 | frames as u32);
    let mut file: Vec<u8> = words.iter().flat_map(|word| word.to_le_bytes()).collect();
    file.resize(bytes, 0);
    file
}

#[test]
fn files_around_the_largest_size() {
    let bounded = [1 << 30 | 7, 2 << 30 | 3, 5 << 29 | 9];
    for bytes in MAX_FILE_BYTES - 5..=MAX_FILE_BYTES + 5 {
        for words in 1..=3 {
            let frames = (bytes / 4 - 4) / words;
            let file = sized(&bounded[..words], frames, bytes);
            for room in [frames - 1, frames, MAX_FRAMES - 1, MAX_FRAMES, MAX_FRAMES + 9] {
                compare(Case::Read {
                    file: file.clone(),
                    rooms: [room; 3],
                });
            }
        }
    }
}

/// More frames than there may be fit into a file: 2 behind 8, and before 7.
#[test]
fn files_of_too_many_frames() {
    for energy in with_reference() {
        let frames = |frames: usize, bytes: usize| {
            let file = sized(&[1 << 30 | 7], frames, bytes);
            let [mut harvest, mut least, mut most] = [[0; MAX_FRAMES]; 3];
            energy
                .read(&file, &mut harvest, &mut least, &mut most)
                .map(|header| header.frames)
        };
        assert_eq!(frames(672, 2_704), Ok(672), "{}", energy.name());
        assert_eq!(frames(673, 2_708), Err(Refusal::TooManyFrames), "{}", energy.name());
        assert_eq!(
            frames(673, 2_707),
            Err(Refusal::BadWord { word: 676 }),
            "{}",
            energy.name()
        );
        assert_eq!(
            frames(673, 2_709),
            Err(Refusal::BadWord { word: 677 }),
            "{}",
            energy.name()
        );
        assert_eq!(frames(2_016, 8_080), Err(Refusal::TooManyFrames), "{}", energy.name());
    }
    for rooms in [[0; 3], [673; 3], [672, 673, 9]] {
        let file = sized(&[1 << 30 | 7], 673, 2_708);
        compare(Case::Read { file, rooms });
    }
}

/// Each list of the reader may be longer, and none shorter, than the file has frames; its surplus is kept.
#[test]
fn each_list_of_the_reader_has_room() {
    for frame in [
        &[1 << 30 | 7][..],
        &[1 << 30, 2 << 30 | 3],
        &[1 << 30, 2 << 30, 5 << 29],
    ] {
        let file = sized(frame, 2, 16 + 8 * frame.len());
        for place in 0..3 {
            for length in [0, 1, 2, 3, 9] {
                let mut rooms = [2; 3];
                rooms[place] = length;
                compare(Case::Read {
                    file: file.clone(),
                    rooms,
                });
            }
        }
    }
}

/// The most energy is the largest capacity and the largest harvest in every frame, no frame loses more than its
/// harvest, and no unit earns more than 24.
#[test]
fn the_room_of_a_listing_is_that_of_lines_with_the_largest_figures() {
    let energy = u64::from(MAX_CAPACITY) + u64::from(MAX_HARVEST) * MAX_FRAMES as u64;
    let worth = 24 * energy;
    let first = format!("frames {MAX_FRAMES} capacity {MAX_CAPACITY} needed {energy}\n");
    let frame = format!("{MAX_FRAMES} {energy} {MAX_CAPACITY} {MAX_HARVEST}\n");
    let last = format!("worth {worth} {worth} {worth}\n");
    assert_eq!(LISTING_BYTES, first.len() + MAX_FRAMES * frame.len() + last.len());
}

#[test]
fn listings_of_the_most_frames_have_room() {
    let most = MAX_CAPACITY;
    for (start, end) in [(most, most), (most, 0), (0, most)] {
        let mut file = vec![0; MAX_FILE_BYTES];
        let lists = Lists::unbounded(vec![MAX_HARVEST; MAX_FRAMES]);
        let written = Reference.write(figures(most, start, end), lists.frames(), &mut file);
        file.truncate(written.expect("a valid request"));
        for energy in under_test() {
            let bytes = energy.listing(&file, &mut vec![0; 2 * LISTING_BYTES]);
            assert!(bytes <= LISTING_BYTES, "{}: {bytes}", energy.name());
        }
        compare(Case::Listing {
            file,
            room: LISTING_BYTES,
        });
    }
}

#[test]
fn short_and_torn_files() {
    let mut file: Vec<u8> = Vec::new();
    for word in [
        9,
        0,
        0,
        0x4000_0001,
        0x8000_0001,
        0x4000_0002,
        0xa000_0003,
        0xc000_0002,
        0xc000_0002_u32,
    ] {
        file.extend(word.to_le_bytes());
    }
    for bytes in 0..=file.len() {
        for room in [0, 1, 2, 9] {
            compare(Case::Read {
                file: file[..bytes].to_vec(),
                rooms: [room; 3],
            });
        }
    }
    let empty: Vec<u8> = [0, 0, 0, 3_u32 << 30]
        .iter()
        .flat_map(|word| word.to_le_bytes())
        .collect();
    for energy in under_test() {
        assert_eq!(
            energy.read(&empty, &mut [], &mut [], &mut []).map(|read| read.frames),
            Ok(0),
            "{}",
            energy.name()
        );
        let refusal = energy.read(&[0; 12], &mut [], &mut [], &mut []).map(|read| read.frames);
        assert_eq!(refusal, Err(Refusal::BadWord { word: 3 }), "{}", energy.name());
    }
}

#[test]
fn records_with_totals_near_the_largest_number() {
    let terms = Terms {
        frames: 3,
        capacity: 10,
        start: 4,
        end: 0,
    };
    let now = |totals| Present {
        recorded: 1,
        charge: 5,
        totals,
    };
    let calls = [
        Call::Record { harvest: 3, used: 2 },
        Call::Rest {
            lists: Lists::unbounded(vec![1, 2, 3]),
            budgets: 3,
        },
        Call::Part { budgets: 3 },
    ];
    for (used, lost) in [
        (2, 4),
        (3, 3),
        (u64::MAX, 7),
        (u64::MAX, u64::MAX),
        (1 << 63, (1 << 63) + 6),
        (2, 5),
    ] {
        for harvested in [7, MAX_HARVEST.into(), u64::from(MAX_HARVEST) + 1, u64::MAX] {
            for call in &calls {
                let now = now(Totals { harvested, used, lost });
                compare(Case::On {
                    shift: Shift { terms, now },
                    call: call.clone(),
                });
            }
        }
    }
}
