//! Leasts and mosts worked by hand, through every implementation: document 02's third point.

use energy::{Energy, Figures, Refusal, Rest, Shift, Verdict, LISTING_BYTES};
use evidence::lists::Lists;
use evidence::reference::limits::{MAX_BOUND, MAX_CAPACITY, MAX_HARVEST, NO_UPPER_END};
use evidence::with_reference;

/// The request of the listing: its figures and harvests.
const LISTED: Figures = Figures {
    capacity: 5,
    start: 2,
    end: 2,
};
const LISTING: [u32; 6] = [6, 4, 0, 0, 5, 5];

fn figures(capacity: u32, start: u32, end: u32) -> Figures {
    Figures { capacity, start, end }
}

/// Frames with the leasts and mosts of some of them, each with its frame's number.
fn bounded(harvest: &[u32], leasts: &[(usize, u32)], mosts: &[(usize, u32)]) -> Lists {
    let mut lists = Lists::unbounded(harvest.to_vec());
    leasts.iter().for_each(|&(frame, least)| lists.least[frame - 1] = least);
    mosts.iter().for_each(|&(frame, most)| lists.most[frame - 1] = most);
    lists
}

/// The plan of a request, or its refusal.
fn plan(energy: &dyn Energy, figures: Figures, lists: &Lists) -> Result<Vec<u32>, Refusal> {
    let mut budgets = vec![0; lists.count()];
    energy.plan(figures, lists.frames(), &mut budgets).map(|()| budgets)
}

/// What a request has: the budgets of its plan, their charges and losses, and its needed capacity. Its shift starts.
fn assert_planned(figures: Figures, lists: &Lists, (budgets, charges, losses): (&[u32], &[i64], &[u32]), needed: u64) {
    for energy in with_reference() {
        let name = format!("{}, {lists:?}", energy.name());
        assert_eq!(plan(&*energy, figures, lists), Ok(budgets.to_vec()), "{name}");
        let mut traced = (vec![9; budgets.len()], vec![9; budgets.len()]);
        let verdict = energy.trace(figures, &lists.harvest, budgets, &mut traced.0, &mut traced.1);
        assert_eq!(verdict, Ok(Verdict::Feasible), "{name}");
        assert_eq!(traced, (charges.to_vec(), losses.to_vec()), "{name}");
        assert_eq!(energy.needed(figures, lists.frames()), Ok(needed), "{name}");
        let started = energy.shift_start(figures, lists.frames());
        assert_eq!(started.map(|shift| shift.now.charge), Ok(figures.start), "{name}");
    }
}

#[test]
fn the_listings_request_within_bounds() {
    let none = &[0; 6];
    let listed = |leasts: &[(usize, u32)], mosts: &[(usize, u32)]| bounded(&LISTING, leasts, mosts);
    assert_planned(
        LISTED,
        &listed(&[], &[(1, 3)]),
        (&[3, 4, 3, 2, 4, 4], &[5, 5, 2, 0, 1, 2], none),
        6,
    );
    assert_planned(
        LISTED,
        &listed(&[(4, 3)], &[]),
        (&[4, 3, 2, 3, 4, 4], &[4, 5, 3, 0, 1, 2], none),
        6,
    );
    assert_planned(
        LISTED,
        &listed(&[(5, 6)], &[]),
        (&[4, 3, 2, 2, 6, 3], &[4, 5, 3, 1, 0, 2], none),
        6,
    );
}

#[test]
fn mosts_lose_energy_exceed_the_end_charge_and_need_less() {
    let mut lists = Lists::unbounded(LISTING.to_vec());
    lists.most = vec![1; 6];
    assert_planned(LISTED, &lists, (&[1; 6], &[5, 5, 4, 3, 5, 5], &[2, 3, 0, 0, 2, 4]), 2);
    let lists = bounded(&[5], &[(1, 1)], &[(1, 1)]);
    assert_planned(figures(9, 4, 5), &lists, (&[1], &[8], &[0]), 5);
    assert_planned(figures(5, 4, 5), &lists, (&[1], &[5], &[3]), 5);
}

#[test]
fn a_least_that_is_its_most_is_the_budget() {
    let charges = &[5, 5, 4, 2, 3, 4];
    let mut lists = Lists::unbounded(LISTING.to_vec());
    lists.least = vec![2, 3, 1, 2, 4, 4];
    lists.most = lists.least.clone();
    assert_planned(LISTED, &lists, (&lists.least, charges, &[1, 1, 0, 0, 0, 0]), 3);
}

#[test]
fn bounds_that_bind_nothing_change_nothing() {
    let mut lists = Lists::unbounded(LISTING.to_vec());
    lists.most = vec![4, 4, 9, MAX_BOUND, MAX_BOUND, NO_UPPER_END];
    lists.least = vec![3, 0, 3, 2, 1, 4];
    assert_planned(LISTED, &lists, (&[4, 3, 3, 2, 4, 4], &[4, 5, 2, 0, 1, 2], &[0; 6]), 6);
}

/// Planning, starting a shift and the needed capacity, each refused or not.
fn answers(energy: &dyn Energy, figures: Figures, lists: &Lists) -> [Result<(), Refusal>; 3] {
    [
        plan(energy, figures, lists).map(|_| ()),
        energy.shift_start(figures, lists.frames()).map(|_| ()),
        energy.needed(figures, lists.frames()).map(|_| ()),
    ]
}

#[test]
fn leasts_that_are_not_feasible_are_refused() {
    let refused = Err(Refusal::LeastsOutOfReach);
    for energy in with_reference() {
        let answers = |figures, lists: &Lists| answers(&*energy, figures, lists);
        let lists = bounded(&LISTING, &[(1, 9)], &[]);
        assert_eq!(answers(LISTED, &lists), [refused; 3], "{}", energy.name());

        // The end charge alone is missed.
        let lists = bounded(&[1, 2], &[(2, 3)], &[]);
        assert_eq!(answers(figures(9, 0, 0), &lists), [Ok(()); 3], "{}", energy.name());
        assert_eq!(answers(figures(9, 0, 1), &lists), [refused; 3], "{}", energy.name());

        // A store without limit carries what this one loses.
        let lists = bounded(&[6, 0], &[(2, 5)], &[]);
        let expected = [refused, refused, Ok(())];
        assert_eq!(answers(figures(2, 0, 0), &lists), expected, "{}", energy.name());
        assert_eq!(
            energy.needed(figures(2, 0, 0), lists.frames()),
            Ok(5),
            "{}",
            energy.name()
        );

        // The needed capacity has no capacity to be judged by: neither the one given nor the largest.
        let lists = bounded(&[0], &[(1, 3)], &[]);
        let expected = [
            Err(Refusal::StartAboveCapacity),
            Err(Refusal::StartAboveCapacity),
            refused,
        ];
        assert_eq!(answers(figures(1, 2, 0), &lists), expected, "{}", energy.name());
    }
}

/// Without limit a store may hold more than the largest capacity: all of a large start and of what is harvested.
#[test]
fn the_needed_capacity_judges_leasts_beyond_the_largest_capacity() {
    let mut harvest = vec![MAX_HARVEST; 400];
    harvest.extend([0, 0, 0]);
    let full = figures(MAX_CAPACITY, MAX_CAPACITY, 0);
    let leasts: Vec<(usize, u32)> = [386_666_666, 386_666_667, 386_666_667]
        .into_iter()
        .enumerate()
        .map(|(i, least)| (401 + i, least))
        .collect();
    let lists = bounded(&harvest, &leasts, &[]);
    let refused = Err(Refusal::LeastsOutOfReach);
    for energy in with_reference() {
        let [planned, started, _] = answers(&*energy, full, &lists);
        assert_eq!([planned, started], [refused; 2], "{}", energy.name());
        assert_eq!(
            energy.needed(full, lists.frames()),
            Ok(1_160_000_000),
            "{}",
            energy.name()
        );
    }
}

#[test]
fn bad_bounds_are_refused_with_their_earliest_frame() {
    let refused = |frame| [Err(Refusal::BadBounds { frame }); 3];
    for energy in with_reference() {
        let answers = |leasts: &[(usize, u32)], mosts: &[(usize, u32)]| {
            answers(&*energy, LISTED, &bounded(&LISTING, leasts, mosts))
        };
        let name = energy.name();
        assert_eq!(answers(&[(2, 4)], &[(2, 3)]), refused(2), "{name}");
        assert_eq!(answers(&[(2, 4), (5, 1)], &[(2, 3), (5, 0)]), refused(2), "{name}");
        assert_eq!(answers(&[(6, 1)], &[(6, 0)]), refused(6), "{name}");
        assert_eq!(answers(&[(3, MAX_BOUND + 1)], &[]), refused(3), "{name}");
        assert_eq!(answers(&[(3, NO_UPPER_END)], &[]), refused(3), "{name}");
        assert_eq!(answers(&[], &[(4, MAX_BOUND + 1)]), refused(4), "{name}");
        assert_eq!(answers(&[], &[(4, NO_UPPER_END - 1)]), refused(4), "{name}");
        assert_eq!(answers(&[], &[(4, MAX_BOUND)]), [Ok(()); 3], "{name}");
        assert_eq!(
            answers(&[(3, MAX_BOUND)], &[]),
            [Err(Refusal::LeastsOutOfReach); 3],
            "{name}"
        );
        assert_eq!(answers(&[(1, 3)], &[(1, 3)]), [Ok(()); 3], "{name}");
    }
}

/// 7 before the figures, 6 before 10, 10 before 9, 9 before 11.
#[test]
fn refusals_in_their_order() {
    let missing = |missing| [Err(Refusal::OutOfReach { missing }); 3];
    for energy in with_reference() {
        let answers = |figures, lists: &Lists| answers(&*energy, figures, lists);
        let name = energy.name();
        let mut lists = bounded(&[1, MAX_HARVEST + 1], &[(1, 1)], &[(1, 0)]);
        let refused = [Err(Refusal::HarvestAboveLimit { frame: 2 }); 3];
        assert_eq!(answers(figures(9, 0, 9), &lists), refused, "{name}");
        lists.harvest[1] = 2;
        let refused = [Err(Refusal::BadBounds { frame: 1 }); 3];
        assert_eq!(answers(figures(9, 0, 9), &lists), refused, "{name}");
        lists.most[0] = 9;
        lists.least[0] = 9;
        assert_eq!(answers(figures(9, 0, 9), &lists), missing(6), "{name}");
        assert_eq!(
            answers(figures(9, 0, 3), &lists),
            [Err(Refusal::LeastsOutOfReach); 3],
            "{name}"
        );
        lists.most.pop();
        let above = figures(MAX_CAPACITY + 1, MAX_CAPACITY + 2, 0);
        assert_eq!(answers(above, &lists), [Err(Refusal::WrongLength); 3], "{name}");
        lists.most.extend([9, 9]);
        assert_eq!(answers(above, &lists), [Err(Refusal::WrongLength); 3], "{name}");
        lists.most.pop();
        assert_eq!(answers(above, &lists), [Err(Refusal::CapacityAboveLimit); 3], "{name}");
        lists.least.pop();
        assert_eq!(answers(above, &lists), [Err(Refusal::WrongLength); 3], "{name}");
    }
}

/// The listing's shift with frame 1 recorded with harvest 1 and use 3.
fn recorded(energy: &dyn Energy) -> Shift {
    let lists = bounded(&LISTING, &[], &[(1, 1)]);
    let shift = energy.shift_start(LISTED, lists.frames()).expect("a valid request");
    // The use is not bounded by the most.
    energy.shift_record(shift, 1, 3).expect("a frame to record")
}

/// The rest of that shift with these lists, and the budgets that it leaves.
fn rest(energy: &dyn Energy, lists: &Lists) -> (Result<Rest, Refusal>, Vec<u32>) {
    let mut budgets = vec![77; 6];
    let rest = energy.shift_plan_rest(recorded(energy), lists.frames(), &mut budgets);
    (rest, budgets)
}

#[test]
fn the_rest_goes_by_the_bounds_lent() {
    for energy in with_reference() {
        let rest = |leasts: &[(usize, u32)], mosts: &[(usize, u32)]| rest(&*energy, &bounded(&LISTING, leasts, mosts));
        let planned = |budgets: [u32; 6]| (Ok(Rest::Planned), budgets.to_vec());
        let name = energy.name();
        assert_eq!(rest(&[], &[]), planned([77, 2, 1, 1, 4, 4]), "{name}");
        assert_eq!(rest(&[], &[(2, 1)]), planned([77, 1, 2, 1, 4, 4]), "{name}");
        assert_eq!(rest(&[(4, 3)], &[]), planned([77, 1, 0, 3, 4, 4]), "{name}");
        let mosts = [1; 5].into_iter().enumerate();
        let mosts: Vec<(usize, u32)> = mosts.map(|(i, most)| (i + 2, most)).collect();
        assert_eq!(rest(&[], &mosts), planned([77, 1, 1, 1, 1, 1]), "{name}");
        // Bounds of the recorded frame play no part, bad ones too.
        assert_eq!(rest(&[(1, 9)], &[(1, 0)]), planned([77, 2, 1, 1, 4, 4]), "{name}");
    }
}

#[test]
fn bad_bounds_of_the_rest_are_refused() {
    for energy in with_reference() {
        let kept = vec![77; 6];
        let rest = |lists: &Lists| rest(&*energy, lists);
        let refused = |frame| (Err(Refusal::BadBounds { frame }), kept.clone());
        let name = energy.name();
        let lists = bounded(&LISTING, &[(1, 9), (3, 2), (5, 1)], &[(1, 0), (3, 1), (5, 0)]);
        assert_eq!(rest(&lists), refused(3), "{name}");
        assert_eq!(
            rest(&bounded(&LISTING, &[(6, MAX_BOUND + 1)], &[])),
            refused(6),
            "{name}"
        );
        // 6 comes first, and 10 before short.
        let harvest = [1, 0, 0, 0, 0, MAX_HARVEST + 1];
        let over = (Err(Refusal::HarvestAboveLimit { frame: 6 }), kept.clone());
        assert_eq!(rest(&bounded(&harvest, &[(2, 2)], &[(2, 1)])), over, "{name}");
        assert_eq!(rest(&bounded(&[0; 6], &[(2, 2)], &[(2, 1)])), refused(2), "{name}");
        let wrong = (Err(Refusal::WrongLength), kept.clone());
        let mut lists = bounded(&harvest, &[], &[]);
        lists.least.pop();
        assert_eq!(rest(&lists), wrong, "{name}");
        lists.least.push(0);
        lists.most.push(0);
        assert_eq!(rest(&lists), wrong, "{name}");
    }
}

/// A rest that cannot be served: zeros, with what the end charge misses with them, or 0.
#[test]
fn a_rest_that_is_short() {
    for energy in with_reference() {
        let rest = |harvest: &[u32], leasts: &[(usize, u32)]| rest(&*energy, &bounded(harvest, leasts, &[]));
        let short = |missing| (Ok(Rest::Short { missing }), vec![77, 0, 0, 0, 0, 0]);
        let name = energy.name();
        assert_eq!(rest(&LISTING, &[(2, 9)]), short(0), "{name}");
        assert_eq!(rest(&LISTING, &[(4, 5)]), short(0), "{name}");
        assert_eq!(rest(&[9, 0, 0, 0, 0, 2], &[(6, 1)]), short(0), "{name}");
        assert_eq!(rest(&[9, 0, 0, 0, 0, 1], &[]), short(1), "{name}");
        assert_eq!(rest(&[9, 0, 0, 0, 0, 0], &[(2, 9)]), short(2), "{name}");
        // Leasts of the recorded frame are not asked for.
        assert_eq!(rest(&LISTING, &[(1, 9)]).0, Ok(Rest::Planned), "{name}");
    }
}

/// The words of a file as 32-bit numbers.
fn words(file: &[u8]) -> Vec<u32> {
    file.chunks(4)
        .map(|bytes| u32::from_le_bytes(bytes.try_into().expect("whole words")))
        .collect()
}

/// The bytes of words.
fn bytes(words: &[u32]) -> Vec<u8> {
    words.iter().flat_map(|word| word.to_le_bytes()).collect()
}

#[test]
fn words_of_a_file_with_bounds() {
    let lists = bounded(&[1, 2, 3], &[(1, 1), (3, 2)], &[(2, 0), (3, MAX_BOUND)]);
    let expected = [
        9,
        0,
        0,
        0x4000_0001,
        0x8000_0001,
        0x4000_0002,
        0xa000_0000,
        0x4000_0003,
        0x8000_0002,
        0xbfff_ffff,
        0xc000_0003,
    ];
    for energy in with_reference() {
        let mut file = [0xee; 48];
        let written = energy.write(figures(9, 0, 0), lists.frames(), &mut file);
        assert_eq!(written, Ok(44), "{}", energy.name());
        assert_eq!(words(&file[..44]), expected, "{}", energy.name());
        assert_eq!(file[44..], [0xee; 4], "{}", energy.name());
        assert_eq!(read(&*energy, &file[..44]), Ok(lists.clone()), "{}", energy.name());
        let short = energy.write(figures(9, 0, 0), lists.frames(), &mut file[..43]);
        assert_eq!(short, Err(Refusal::WrongLength), "{}", energy.name());
    }
}

/// The lists of a file.
fn read(energy: &dyn Energy, file: &[u8]) -> Result<Lists, Refusal> {
    let mut lists = Lists {
        harvest: vec![77; 5],
        least: vec![77; 5],
        most: vec![77; 5],
    };
    let header = energy.read(file, &mut lists.harvest, &mut lists.least, &mut lists.most)?;
    for list in [&mut lists.harvest, &mut lists.least, &mut lists.most] {
        assert_eq!(list[header.frames..], [77; 5][header.frames..], "{}", energy.name());
        list.truncate(header.frames);
    }
    Ok(lists)
}

/// Words of kind 2 in their order, in every wrong order, and bounds that are written though they could be left out.
#[test]
fn bounds_in_a_file() {
    const HARVEST: u32 = 0x4000_0007;
    const LEAST: u32 = 0x8000_0002;
    const MOST: u32 = 0xa000_0003;
    const END: u32 = 0xc000_0001;
    for energy in with_reference() {
        let read = |frames: &[u32]| read(&*energy, &bytes(&[&[9, 0, 0], frames].concat()));
        let one = |least, most| {
            Ok(Lists {
                harvest: vec![7],
                least: vec![least],
                most: vec![most],
            })
        };
        let broken = |word| Err(Refusal::BadWord { word });
        let name = energy.name();
        assert_eq!(read(&[HARVEST, END]), one(0, NO_UPPER_END), "{name}");
        assert_eq!(read(&[HARVEST, LEAST, END]), one(2, NO_UPPER_END), "{name}");
        assert_eq!(read(&[HARVEST, MOST, END]), one(0, 3), "{name}");
        assert_eq!(read(&[HARVEST, LEAST, MOST, END]), one(2, 3), "{name}");
        assert_eq!(read(&[HARVEST, 0x8000_0000, END]), one(0, NO_UPPER_END), "{name}");
        assert_eq!(
            read(&[HARVEST, 0x9fff_ffff, 0xbfff_ffff, END]),
            one(MAX_BOUND, MAX_BOUND),
            "{name}"
        );
        // A least above its most is the planner's matter.
        assert_eq!(read(&[HARVEST, 0x9fff_ffff, MOST, END]), one(MAX_BOUND, 3), "{name}");
        assert_eq!(read(&[LEAST, HARVEST, END]), broken(3), "{name}");
        assert_eq!(read(&[MOST, HARVEST, END]), broken(3), "{name}");
        assert_eq!(read(&[HARVEST, LEAST, LEAST, END]), broken(5), "{name}");
        assert_eq!(read(&[HARVEST, MOST, MOST, END]), broken(5), "{name}");
        assert_eq!(read(&[HARVEST, MOST, LEAST, END]), broken(5), "{name}");
        assert_eq!(read(&[HARVEST, LEAST, MOST, LEAST, END]), broken(6), "{name}");
        assert_eq!(read(&[HARVEST, LEAST, MOST, MOST, END]), broken(6), "{name}");
        assert_eq!(read(&[HARVEST, LEAST, 9, END]), broken(5), "{name}");
        assert_eq!(read(&[HARVEST, LEAST, MOST]), broken(6), "{name}");
        // The count is that of the harvests, and nothing follows it.
        assert_eq!(read(&[HARVEST, LEAST, MOST, 0xc000_0003]), broken(6), "{name}");
        assert_eq!(read(&[HARVEST, END, LEAST]), broken(5), "{name}");
    }
}

#[test]
fn the_listing_of_a_request_with_mosts() {
    let expected = "frames 6 capacity 5 needed 2\n\
        1 1 5 2\n2 1 5 3\n3 1 4 0\n4 1 3 0\n5 1 5 2\n6 1 5 4\n\
        worth 96 144 30\n";
    let mut lists = Lists::unbounded(LISTING.to_vec());
    lists.most = vec![1; 6];
    for energy in with_reference() {
        assert_eq!(listing(&*energy, LISTED, &lists), expected, "{}", energy.name());
        let lists = bounded(&LISTING, &[(1, 9)], &[]);
        assert_eq!(listing(&*energy, LISTED, &lists), "refused 11 0\n", "{}", energy.name());
        let file = bytes(&[5, 2, 2, 0x4000_0006, 0x8000_0002, 0xa000_0001, 0xc000_0001]);
        assert_eq!(text(&*energy, &file), "refused 10 1\n", "{}", energy.name());
    }
}

/// The text of a request's file.
fn listing(energy: &dyn Energy, figures: Figures, lists: &Lists) -> String {
    let mut file = vec![0; 99];
    let bytes = energy
        .write(figures, lists.frames(), &mut file)
        .expect("a valid request");
    text(energy, &file[..bytes])
}

/// The text of a file.
fn text(energy: &dyn Energy, file: &[u8]) -> String {
    let mut text = vec![0; LISTING_BYTES];
    let bytes = energy.listing(file, &mut text);
    String::from_utf8(text[..bytes].to_vec()).expect("a listing is plain text")
}
