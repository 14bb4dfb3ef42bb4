//! The free functions against the trait, accepted and refused; which of several refusals is given.

mod order;

use energy::{Energy, Frames, Linked, OwnedFrames, Refusal, Trace, Verdict};
use energy::{LISTING_BYTES, MAX_FILE_BYTES, MAX_FRAMES, MAX_HARVEST};
use order::{answers, figures, requests, Request};

#[test]
fn plans_are_the_traits() {
    for request in requests() {
        let mut budgets = vec![0; request.harvest.len()];
        let planned = Linked.plan(request.figures, request.frames(), &mut budgets);
        assert_eq!(
            energy::plan(request.figures, request.frames()),
            planned.map(|()| budgets)
        );
    }
    let given = answers(&requests(), |r| energy::plan(r.figures, r.frames()));
    assert_eq!(given, "1 2 7 7 3 4 5 6:2 10:1 9:499997 11 ok");
    assert_eq!(order::of_header("energy_plan"), order::of_answers(&given));
    assert_eq!(order::of_documentation("pub fn plan"), order::of_answers(&given));
}

#[test]
fn needed_capacities_are_the_traits() {
    for request in requests() {
        let needed = Linked.needed(request.figures, request.frames());
        assert_eq!(energy::needed(request.figures, request.frames()), needed);
    }
    let given = answers(&requests(), |r| energy::needed(r.figures, r.frames()));
    assert_eq!(given, "1 2 7 7 3 6:2 6:2 6:2 10:1 9:499997 11 ok");
    assert_eq!(order::of_header("energy_needed"), order::of_answers(&given));
    assert_eq!(order::of_documentation("pub fn needed"), order::of_answers(&given));
    // The capacity plays no part.
    let least = figures(0, 2, 2);
    assert_eq!(energy::needed(least, Frames::unbounded(&[6, 4, 0, 0, 5, 5])), Ok(6));
}

#[test]
fn traces_are_the_traits() {
    for Request {
        figures,
        harvest,
        least,
        ..
    } in requests()
    {
        let (mut charges, mut losses) = (vec![0; harvest.len()], vec![0; harvest.len()]);
        let verdict = Linked.trace(figures, &harvest, &least, &mut charges, &mut losses);
        let wanted = verdict.map(|verdict| Trace {
            verdict,
            charges,
            losses,
        });
        assert_eq!(energy::trace(figures, &harvest, &least), wanted);
    }
    // The leasts are the budgets; mosts are not lent, and no bound counts.
    let given = answers(&requests(), |r| energy::trace(r.figures, &r.harvest, &r.least));
    assert_eq!(given, "1 2 7 3 3 4 5 6:2 ok ok ok ok");
    assert_eq!(order::of_header("energy_trace"), order::of_answers(&given));
    assert_eq!(order::of_documentation("pub fn trace"), order::of_answers(&given));
}

#[test]
fn traces_judge_budgets() {
    let verdict = |budgets: &[u32]| energy::trace(figures(5, 2, 2), &[6, 4, 0], budgets).unwrap().verdict;
    assert_eq!(verdict(&[4, 3, 3]), Verdict::Feasible);
    assert_eq!(verdict(&[4, 3, 4]), Verdict::EndTooLow);
    assert_eq!(verdict(&[0, 0, 6]), Verdict::EndTooLow);
    assert_eq!(verdict(&[9, 0, 0]), Verdict::BelowZero { frame: 1 });
    let lost = energy::trace(figures(5, 2, 2), &[6, 4, 0], &[0, 0, 6]).unwrap();
    assert_eq!((lost.charges, lost.losses), (vec![5, 5, -1], vec![3, 4, 0]));
}

#[test]
fn traces_tell_where_leasts_are_out_of_reach() {
    let harvest = [6, 4, 0];
    let fails = |least: &[u32]| {
        let planned = energy::plan(
            figures(5, 2, 2),
            Frames {
                least,
                ..Frames::unbounded(&harvest)
            },
        );
        assert_eq!(planned, Err(Refusal::LeastsOutOfReach));
        energy::trace(figures(5, 2, 2), &harvest, least).unwrap().verdict
    };
    assert_eq!(fails(&[0, 10, 0]), Verdict::BelowZero { frame: 2 });
    assert_eq!(fails(&[0, 0, 4]), Verdict::EndTooLow);
}

#[test]
fn grades_are_the_traits() {
    for budgets in [
        &[][..],
        &[0],
        &[4, 3, 3, 2, 4, 4],
        &[u32::MAX; MAX_FRAMES],
        &[1; MAX_FRAMES + 1],
    ] {
        assert_eq!(energy::grade(budgets), Linked.grade(budgets));
    }
    assert_eq!(energy::grade(&[4, 3, 3, 2, 4, 4]), Ok([320, 480, 100]));
    let given = answers(&[&[][..], &[1; MAX_FRAMES + 1], &[1]], |budgets| energy::grade(budgets));
    assert_eq!(given, "1 2 ok");
    assert_eq!(order::of_header("energy_grade"), order::of_answers(&given));
    assert_eq!(order::of_documentation("pub fn grade"), order::of_answers(&given));
}

#[test]
fn written_files_are_the_traits() {
    for request in requests() {
        let mut file = vec![0; MAX_FILE_BYTES];
        let written = Linked.write(request.figures, request.frames(), &mut file);
        let wanted = written.map(|bytes| file[..bytes].to_vec());
        assert_eq!(energy::write(request.figures, request.frames()), wanted);
    }
    let given = answers(&requests(), |r| energy::write(r.figures, r.frames()));
    assert_eq!(given, "1 2 7 7 3 4 5 6:2 10:1 ok ok ok");
    assert_eq!(order::of_header("energy_write"), order::of_answers(&given));
    assert_eq!(order::of_documentation("pub fn write"), order::of_answers(&given));
}

#[test]
fn lent_lists_that_do_not_fit_are_refused_in_their_place() {
    let given =
        |call: &dyn Fn(&Request, usize) -> Result<(), Refusal>| answers(&requests(), |r| call(r, r.harvest.len() + 1));
    let budgets = given(&|r, long| Linked.plan(r.figures, r.frames(), &mut vec![0; long]));
    assert_eq!(budgets, "1 2 7 7 7 7 7 7 7 7 7 7");
    let trace = |r: &Request, charges, losses| {
        let (mut charges, mut losses) = (vec![0; charges], vec![0; losses]);
        Linked
            .trace(r.figures, &r.harvest, &r.least, &mut charges, &mut losses)
            .map(|_| ())
    };
    let charges = given(&|r, long| trace(r, long, long - 1));
    let losses = given(&|r, long| trace(r, long - 1, long));
    assert_eq!([charges, losses], [&budgets[..]; 2]);
    // Each file has four words besides those of its frames.
    let file = given(&|r, long| Linked.write(r.figures, r.frames(), &mut vec![0; 4 * long]).map(|_| ()));
    assert_eq!(file, budgets);
}

/// Word files, good and bad ones.
fn files() -> Vec<Vec<u8>> {
    let mut files: Vec<Vec<u8>> = requests()
        .iter()
        .filter_map(|request| energy::write(request.figures, request.frames()).ok())
        .collect();
    assert_eq!(files.len(), 3);
    let bounds = ([0; MAX_FRAMES], [9; MAX_FRAMES]);
    let week = Frames {
        harvest: &[MAX_HARVEST; MAX_FRAMES],
        least: &bounds.0,
        most: &bounds.1,
    };
    files.push(energy::write(figures(9, 0, 0), week).unwrap());
    files.extend([
        vec![],
        vec![0; 3],
        vec![0xff; MAX_FILE_BYTES],
        vec![0; MAX_FILE_BYTES + 1],
    ]);
    let mut cut = files[0].clone();
    cut.truncate(cut.len() - 4);
    files.push(cut);
    files
}

#[test]
fn read_files_are_the_traits() {
    let mut refused = 0;
    for file in files() {
        let [mut harvest, mut least, mut most] = [[0; MAX_FRAMES]; 3];
        let header = Linked.read(&file, &mut harvest, &mut least, &mut most);
        let wanted = header.map(|header| {
            let frames = Frames {
                harvest: &harvest[..header.frames],
                least: &least[..header.frames],
                most: &most[..header.frames],
            };
            (header.figures, frames.iter().collect::<OwnedFrames>())
        });
        refused += u32::from(wanted.is_err());
        assert_eq!(energy::read(&file), wanted);
        if let Ok((figures, frames)) = wanted {
            assert_eq!(energy::write(figures, frames.frames()), Ok(file));
        }
    }
    assert_eq!(refused, 5);
    assert_eq!(energy::read(&[]), Err(Refusal::BadWord { word: 0 }));
}

/// The word file of that many frames without bounds, each with a harvest of 1.
fn file_of(frames: u32) -> Vec<u8> {
    let harvests = (0..frames).map(|_| 1 << 30 | 1);
    let words = [9, 0, 0].into_iter().chain(harvests).chain([3 << 30 | frames]);
    words.flat_map(u32::to_le_bytes).collect()
}

#[test]
fn files_are_refused_in_their_order() {
    let [mut large, mut malformed] = [(); 2].map(|()| file_of(MAX_FRAMES as u32 + 1));
    large.resize(MAX_FILE_BYTES + 1, 0);
    malformed.push(0);
    let files = [
        large,
        malformed,
        file_of(MAX_FRAMES as u32 + 1),
        file_of(MAX_FRAMES as u32),
    ];
    let given = answers(&files, |file| energy::read(file));
    assert_eq!(given, "2 8:677 2 ok");
    assert_eq!(order::of_documentation("pub fn read"), order::of_answers(&given));
    // With a list too short, each in its turn, and with all of them long enough.
    let read = |file: &[u8], short: [usize; 3]| {
        let [mut harvest, mut least, mut most] = short.map(|short| vec![0; MAX_FRAMES - short]);
        Linked.read(file, &mut harvest, &mut least, &mut most)
    };
    for short in [[1, 0, 0], [0, 1, 0], [0, 0, 1]] {
        let given = answers(&files, |file| read(file, short));
        assert_eq!(given, "2 8:677 2 7");
        assert_eq!(order::of_header("energy_read"), order::of_answers(&given));
    }
    assert_eq!(answers(&files, |file| read(file, [0; 3])), "2 8:677 2 ok");
}

#[test]
fn listings_are_the_traits() {
    for file in files() {
        let mut text = vec![0; LISTING_BYTES];
        let bytes = Linked.listing(&file, &mut text);
        let listing = energy::listing(&file);
        assert_eq!(listing.as_bytes(), &text[..bytes]);
        if let Err(refusal) = energy::read(&file) {
            assert_eq!(listing, refusal.line() + "\n");
        }
    }
}
