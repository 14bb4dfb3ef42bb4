//! Why not, and how much: the figures that refusals name, each as the independent implementation has it, and what is planned
//! without the leasts.

mod common;

use common::{
    bounded_text, budget_table, check, day_words, figures_now, leasts_fail, request_text, short, Folder, Ran, DAY,
};
use energy::{
    Energy, Figures, Frames, Refusal, Rest, Shift, MAX_CAPACITY, MAX_FILE_BYTES, MAX_FRAMES, MAX_HARVEST, NO_UPPER_END,
};
use evidence::lists::Lists;
use evidence::random::{seed, Random};
use evidence::reference::logbook::Logbook;
use evidence::reference::{refusals, Reference};
use proptest::prelude::*;
use std::cell::Cell;

/// A command, and whether standard output has room for its refusal.
type Command = (&'static str, bool);

/// What refuses as a plan does. The request is standard input.
const PLANS: [Command; 7] = [
    ("plan -", true),
    ("plan --without-leasts -", true),
    ("plan --listing -", true),
    ("plan - --chart out", true),
    ("shift start - --journal out", true),
    ("plan --csv -", false),
    ("plan - --chart -", false),
];
const NEEDED: [Command; 1] = [("needed -", true)];
const TRACES: [Command; 3] = [
    ("trace - budgets", true),
    ("trace --csv - budgets", false),
    ("trace - budgets --chart -", false),
];
const WORDS: [Command; 2] = [("words - out", true), ("words -", false)];

/// The refusal's line where standard output has room for it, and its sentence on standard error.
fn assert_refused(ran: &Ran, has_room: bool, line: &str, sentence: &str) {
    let out = if has_room {
        format!("refused {line}\n")
    } else {
        String::new()
    };
    let told = format!("gomzhiva: refused {line}: {sentence}\n");
    assert_eq!((ran.status, ran.text(), &ran.err), (Some(1), out, &told));
}

/// Each of the commands refuses the request in these words, and leaves nothing behind.
fn assert_all_refuse(commands: &[&[Command]], input: &[u8], line: &str, sentence: &str) {
    let folder = Folder::new();
    folder.write("budgets", "0 0");
    for (command, has_room) in commands.concat() {
        assert_refused(&folder.line_with(command, input), has_room, line, sentence);
        assert_eq!(folder.names(), ["budgets"], "{command}");
    }
}

#[test]
fn too_many_frames_are_counted() {
    let sentence = "there are 673 frames, above the limit of 672";
    let text = request_text(5, 2, 2, &vec![1; MAX_FRAMES + 1]);
    let all = [&PLANS[..], &NEEDED, &TRACES, &WORDS];
    assert_all_refuse(&all, text.as_bytes(), "2 0", sentence);
    let more = request_text(5, 2, 2, &[1; 1000]);
    assert_all_refuse(
        &all,
        more.as_bytes(),
        "2 0",
        "there are 1000 frames, above the limit of 672",
    );
}

/// A word file of so many frames without bounds.
fn words_of(frames: u32) -> Vec<u8> {
    let frame = std::iter::repeat(1 | 1 << 30).take(frames as usize);
    let words = [5, 2, 2].into_iter().chain(frame).chain([frames | 3 << 30]);
    words.flat_map(u32::to_le_bytes).collect()
}

#[test]
fn a_word_file_that_is_too_long_tells_its_frames_or_its_bytes() {
    let text: [Command; 2] = [("text - out", true), ("text -", false)];
    let all = [&PLANS[..], &NEEDED, &TRACES, &WORDS, &text];
    let why = "standard input has a byte 0 and so is no text (a spreadsheet is read as CSV in UTF-8)";
    let most = words_of(MAX_FRAMES as u32);
    assert_eq!(Folder::new().line_with("plan --csv -", &most).status, Some(0));
    for frames in [673, 1000, 2016] {
        let file = words_of(frames);
        assert!(file.len() <= MAX_FILE_BYTES);
        let sentence = format!("there are {frames} frames, above the limit of 672; {why}");
        assert_all_refuse(&all, &file, "2 0", &sentence);
    }
    for (bytes, shown) in [
        (8081, "8081"),
        (8084, "8084"),
        (1_048_576, "1048576"),
        (2_000_000, "more than 1048576"),
    ] {
        let sentence = format!("the word file has {shown} bytes, above the limit of 8080; {why}");
        assert_all_refuse(&all, &vec![0; bytes], "2 0", &sentence);
    }
}

#[test]
fn a_figure_above_the_limit_is_named() {
    let above = |name: &str, figure: u32| format!("the {name} is {figure} Wh, above the limit of 1000000000 Wh");
    let others = [&PLANS[..], &TRACES, &WORDS];
    for high in [MAX_CAPACITY + 1, u32::MAX] {
        // The capacity, whatever the charges; and without a capacity the charges, the start charge first.
        for (start, end) in [(2, 2), (high, 2), (2, high)] {
            let request = request_text(high, start, end, &[1, 1]);
            assert_all_refuse(&others, request.as_bytes(), "3 0", &above("capacity", high));
        }
        for (start, end, name) in [
            (high, 2, "start charge"),
            (high, high, "start charge"),
            (2, high, "end charge"),
        ] {
            let request = request_text(5, start, end, &[1, 1]);
            assert_all_refuse(&[&NEEDED], request.as_bytes(), "3 0", &above(name, high));
        }
    }
    let full = request_text(MAX_CAPACITY + 1, MAX_CAPACITY, MAX_CAPACITY, &[1, 1]);
    let ran = Folder::new().line_with("needed -", full.as_bytes());
    assert_eq!(
        ran.text(),
        "needed capacity 1000000000 Wh\n",
        "its own capacity plays no part"
    );
}

#[test]
fn a_charge_above_the_capacity_is_named_with_it() {
    let others = [&PLANS[..], &TRACES, &WORDS];
    for (capacity, charge) in [(5, 6), (0, 1), (MAX_CAPACITY, u32::MAX)] {
        let above = |name: &str| format!("the {name} charge is {charge} Wh, above the capacity of {capacity} Wh");
        let request = request_text(capacity, charge, 0, &[1, 1]);
        assert_all_refuse(&others, request.as_bytes(), "4 0", &above("start"));
        let request = request_text(capacity, charge, charge, &[1, 1]);
        assert_all_refuse(&others, request.as_bytes(), "4 0", &above("start"));
        let request = request_text(capacity, 0, charge, &[1, 1]);
        assert_all_refuse(&others, request.as_bytes(), "5 0", &above("end"));
    }
    // Figures given as options are those that count, for a text and for a word file.
    let folder = Folder::of_the_day();
    folder.write("day.words", day_words());
    for request in ["day.txt", "day.words"] {
        for (command, line, sentence) in [
            (
                "plan --capacity 1",
                "4 0",
                "the start charge is 2 Wh, above the capacity of 1 Wh",
            ),
            (
                "plan --listing --start 6",
                "4 0",
                "the start charge is 6 Wh, above the capacity of 5 Wh",
            ),
            (
                "plan --end 7",
                "5 0",
                "the end charge is 7 Wh, above the capacity of 5 Wh",
            ),
            (
                "plan --listing --end 7",
                "5 0",
                "the end charge is 7 Wh, above the capacity of 5 Wh",
            ),
        ] {
            let ran = folder.line(&format!("{command} {request}"));
            assert_refused(&ran, true, line, sentence);
        }
    }
    // A word file by itself, which the listing reads too.
    folder.write("low.words", [&1_u32.to_le_bytes(), &day_words()[4..]].concat());
    for command in [
        "plan low.words",
        "plan --listing low.words",
        "shift start low.words --journal out",
    ] {
        let sentence = "the start charge is 2 Wh, above the capacity of 1 Wh";
        assert_refused(&folder.line(command), true, "4 0", sentence);
    }
}

#[test]
fn a_harvest_above_the_limit_is_named_with_its_frame() {
    let all = [&PLANS[..], &NEEDED, &TRACES, &WORDS];
    for (harvest, sentence) in [
        (
            [MAX_HARVEST + 1, 0],
            "the harvest of frame 1 is 400001 Wh, above the limit of 400000 Wh",
        ),
        (
            [MAX_HARVEST, u32::MAX],
            "the harvest of frame 2 is 4294967295 Wh, above the limit of 400000 Wh",
        ),
        (
            [MAX_HARVEST + 2, MAX_HARVEST + 1],
            "the harvest of frame 1 is 400002 Wh, above the limit of 400000 Wh",
        ),
    ] {
        let frame = sentence.split(' ').nth(4).expect("a number");
        let request = request_text(5, 2, 2, &harvest);
        assert_all_refuse(&all, request.as_bytes(), &format!("6 {frame}"), sentence);
    }
    // One that is recorded has the number of its frame.
    let folder = Folder::new();
    assert_eq!(
        folder
            .line_with("shift start - --journal journal", DAY.as_bytes())
            .status,
        Some(0)
    );
    for frame in 1..=2 {
        let ran = folder.line("shift record 400001 0 --journal journal");
        let sentence = format!("the harvest of frame {frame} is 400001 Wh, above the limit of 400000 Wh");
        assert_refused(&ran, true, &format!("6 {frame}"), &sentence);
        let most = folder.line("shift record 400000 2 --journal journal");
        assert_eq!(most.status, Some(0), "{}", most.err);
    }
}

#[test]
fn too_many_budgets_are_counted() {
    let many = "1\n".repeat(MAX_FRAMES + 1);
    for budgets in [many.clone(), format!("budget\n{many}")] {
        let ran = Folder::new().line_with("grade -", budgets.as_bytes());
        assert_refused(&ran, true, "2 0", "there are 673 budgets, above the limit of 672");
    }
    let most = Folder::new().line_with("grade -", "1\n".repeat(MAX_FRAMES).as_bytes());
    assert_eq!(most.status, Some(0));
}

#[test]
fn budgets_of_another_number_are_counted_beside_the_frames() {
    let folder = Folder::of_the_day();
    folder.write("one.txt", request_text(5, 2, 2, &[1]));
    let many = "1 ".repeat(MAX_FRAMES + 1);
    for (request, budgets, counts) in [
        ("day.txt", "1 2 3 4 5", "5 budgets for 6 frames"),
        ("day.txt", "1 2 3 4 5 6 7", "7 budgets for 6 frames"),
        ("day.txt", "budget\n1\n", "1 budget for 6 frames"),
        ("day.txt", "budget\n", "0 budgets for 6 frames"),
        ("day.txt", &many, "673 budgets for 6 frames"),
        ("one.txt", "1 2", "2 budgets for 1 frame"),
    ] {
        for (more, has_room) in [
            ("", true),
            (" --chart out", true),
            (" --csv", false),
            (" --chart -", false),
        ] {
            let ran = folder.line_with(&format!("trace {request} -{more}"), budgets.as_bytes());
            let sentence = format!("a budget for each frame is expected, found {counts}");
            assert_refused(&ran, has_room, "7 0", &sentence);
        }
    }
    assert_eq!(folder.names(), ["day.txt", "one.txt"]);
}

const ADVICE: &str = "; `--without-leasts` plans what can be done without them";

/// What refuses by 11: each command, whether standard output has room for it, and what it adds to the sentence.
const BY_LEASTS: [(Command, &str); 6] = [
    (("plan -", true), ADVICE),
    (("plan - --chart out", true), ADVICE),
    (("plan --csv -", false), ADVICE),
    (("plan - --chart -", false), ADVICE),
    (("plan --listing -", true), ""),
    (("shift start - --journal out", true), ""),
];

fn assert_out_of_reach(request: &str, sentence: &str) {
    let folder = Folder::new();
    for ((command, has_room), advice) in BY_LEASTS {
        let ran = folder.line_with(command, request.as_bytes());
        assert_refused(&ran, has_room, "11 0", &format!("{sentence}{advice}"));
        assert!(folder.names().is_empty(), "{command}");
    }
    // A word file can hold the request all the same, and its listing is refused too.
    assert_eq!(folder.line_with("words - file", request.as_bytes()).status, Some(0));
    let ran = folder.line("plan --listing file");
    assert_refused(&ran, true, "11 0", sentence);
}

#[test]
fn leasts_out_of_reach_name_what_is_missing_and_what_would_do() {
    let reach = "the leasts are out of reach: as budgets they";
    for (request, sentence) in [
        // A larger battery would do, where it was full before, or else a fuller one.
        (
            "capacity 5\nstart 2\nend 0\nharvest least\n1 -\n10 7\n0 6\n0 -\n",
            "run the store dry in frame 3, with 1 Wh missing there; a capacity of 6 Wh would be enough",
        ),
        (
            "capacity 5\nstart 2\nend 0\nharvest least\n0 4\n9 -\n0 5\n",
            "run the store dry in frame 1, with 2 Wh missing there; a start charge of 4 Wh would be enough",
        ),
        (
            "capacity 6\nstart 2\nend 3\nharvest least\n6 -\n0 3\n0 2\n",
            "leave 1 Wh, and 3 Wh were asked for; a capacity of 8 Wh would be enough",
        ),
        (
            "capacity 6\nstart 2\nend 3\nharvest least\n3 -\n0 3\n",
            "leave 2 Wh, and 3 Wh were asked for; a start charge of 3 Wh would be enough",
        ),
        // The least capacity is one that may be, and the needed one is not.
        (
            "capacity 999900000\nstart 999900000\nend 0\nharvest least most\n400000 - 0\n0 500000000 -\n0 499900005 -\n",
            "run the store dry in frame 3, with 5 Wh missing there; a capacity of 999900005 Wh would be enough",
        ),
        // Neither would: the first frame needs more than the whole battery, and nothing comes before it.
        (
            "capacity 5\nstart 2\nend 0\nharvest least\n0 6\n5 -\n",
            "run the store dry in frame 1, with 4 Wh missing there; \
             no start charge and no capacity alone would be enough",
        ),
        (
            "capacity 5\nstart 5\nend 0\nharvest least\n0 6\n5 -\n",
            "run the store dry in frame 1, with 1 Wh missing there; \
             no start charge and no capacity alone would be enough",
        ),
        // Nor where the battery is too small behind a frame that takes more charge than there is.
        (
            "capacity 5\nstart 2\nend 0\nharvest least\n0 3\n9 -\n0 6\n",
            "run the store dry in frame 1, with 1 Wh missing there; \
             no start charge and no capacity alone would be enough",
        ),
    ] {
        assert_out_of_reach(request, &format!("{reach} {sentence}"));
    }
    let dry = "capacity 5\nstart 2\nend 0\nharvest least\n0 6\n5 -\n";
    assert_all_refuse(
        &[&NEEDED],
        dry.as_bytes(),
        "11 0",
        &format!(
            "{reach} run the store dry in frame 1, with 4 Wh missing there; a start charge of 6 Wh would be enough"
        ),
    );
}

/// A day of quarter hours with the sun in the middle, in whose last hours the sieves run.
fn day_of_evening_sieves() -> String {
    let [night, sun, evening] =
        [("0 -\n", 24), ("343 -\n", 48), ("0 37\n", 24)].map(|(line, times)| line.repeat(times));
    format!("capacity 800\nstart 400\nend 22\nharvest least\n{night}{sun}{evening}")
}

#[test]
fn a_capacity_that_is_enough_for_the_leasts_may_be_far_below_the_needed_one() {
    let small = "capacity 4\nstart 4\nend 0\nharvest least\n7 -\n1 -\n3 8\n4 4\n5 4\n";
    for (request, fail, enough, needed) in [
        (small, "frame 3, with 1 Wh missing there", 5, 7),
        (
            &day_of_evening_sieves(),
            "frame 94, with 14 Wh missing there",
            910,
            5494,
        ),
    ] {
        let reach = format!("the leasts are out of reach: as budgets they run the store dry in {fail}");
        assert_out_of_reach(request, &format!("{reach}; a capacity of {enough} Wh would be enough"));
        let folder = Folder::new();
        let ran = |line: String| folder.line_with(&line, request.as_bytes());
        assert_eq!(ran("needed -".into()).text(), format!("needed capacity {needed} Wh\n"));
        for (capacity, status) in [(enough, 0), (enough - 1, 1)] {
            assert_eq!(ran(format!("plan - --capacity {capacity}")).status, Some(status));
        }
    }
}

/// What a refusal 11 of a request says, and which kind it is.
#[derive(Debug)]
struct OutOfReach {
    sentence: String,
    start: Option<u32>,
    capacity: Option<u32>,
}

impl OutOfReach {
    /// With what is enough, if anything is, and else in words that nothing is.
    fn of(figures: Figures, lists: &Lists, start: Option<u32>, capacity: Option<u32>, nothing: &str) -> Self {
        let enough = match (start, capacity) {
            (Some(start), None) => format!("a start charge of {start} Wh"),
            (None, Some(capacity)) => format!("a capacity of {capacity} Wh"),
            (None, None) => nothing.to_string(),
            // A fuller battery helps where it was not full before, and a larger one where it was.
            (Some(_), Some(_)) => panic!("{figures:?} {lists:?}"),
        };
        let fail = leasts_fail(0, figures, lists.frames());
        OutOfReach {
            sentence: format!("the leasts are out of reach: as budgets they {fail}; {enough} would be enough"),
            start,
            capacity,
        }
    }

    /// Of a plan: no start charge is above the capacity, and no charge is above the start charge and all harvest.
    fn of_plan(figures: Figures, lists: &Lists) -> Self {
        let accepts = |figures| Reference.shift_start(figures, lists.frames()).is_ok();
        let all = figures.start + lists.harvest.iter().sum::<u32>();
        let start = first(figures.start, figures.capacity, |start| {
            accepts(Figures { start, ..figures })
        });
        let capacity = first(figures.capacity, all, |capacity| {
            accepts(Figures { capacity, ..figures })
        });
        OutOfReach::of(figures, lists, start, capacity, "no start charge and no capacity alone")
    }

    /// Of the needed capacity: with as much as all leasts and the end charge take, any request is feasible.
    fn of_needed(figures: Figures, lists: &Lists) -> Self {
        let most = figures.end + lists.least.iter().sum::<u32>();
        let start = first(figures.start, most, |start| {
            refusals::needed(Figures { start, ..figures }, lists.frames()).is_ok()
        });
        let unlimited = Figures {
            capacity: MAX_CAPACITY,
            ..figures
        };
        OutOfReach::of(unlimited, lists, start, None, "no start charge")
    }
}

/// The first figure that is accepted above one that is refused and up to a largest one.
fn first(refused: u32, largest: u32, accepts: impl Fn(u32) -> bool) -> Option<u32> {
    assert!(!accepts(refused));
    (refused..=largest).find(|&figure| accepts(figure))
}

/// How often a refusal 11 named nothing that would do, a start charge, a capacity, and one below the needed capacity, how often
/// the leasts left too little, and how often the needed capacity was refused too.
#[derive(Default, Debug)]
struct Seen {
    nothing: Cell<u32>,
    start: Cell<u32>,
    capacity: Cell<u32>,
    below: Cell<u32>,
    low: Cell<u32>,
    needed: Cell<u32>,
}

impl Seen {
    fn all(&self) -> [u32; 6] {
        let Seen {
            nothing,
            start,
            capacity,
            below,
            low,
            needed,
        } = self;
        [nothing, start, capacity, below, low, needed].map(Cell::get)
    }
}

fn count(seen: &Cell<u32>, is_seen: bool) {
    seen.set(seen.get() + u32::from(is_seen));
}

/// Where the reference refuses a request by 11, every command says what the reference says of it, and so do the figures that are
/// named when they are tried.
fn assert_says_what_would_do(figures: Figures, lists: &Lists, seen: &Seen) {
    let folder = Folder::new();
    folder.write("request", bounded_text(figures, lists.frames()));
    if refusals::needed(figures, lists.frames()) == Err(Refusal::LeastsOutOfReach) {
        let OutOfReach { sentence, .. } = OutOfReach::of_needed(figures, lists);
        assert_refused(&folder.line("needed request"), true, "11 0", &sentence);
        count(&seen.needed, true);
    }
    if Reference.shift_start(figures, lists.frames()) != Err(Refusal::LeastsOutOfReach) {
        return;
    }
    let expected = OutOfReach::of_plan(figures, lists);
    let sentence = &expected.sentence;
    let advised = format!("{sentence}{ADVICE}");
    assert_refused(&folder.line("plan request"), true, "11 0", &advised);
    assert_refused(&folder.line("plan --csv request"), false, "11 0", &advised);
    assert_refused(&folder.line("plan --listing request"), true, "11 0", sentence);
    assert_refused(
        &folder.line("shift start request --journal out"),
        true,
        "11 0",
        sentence,
    );
    for (name, enough, largest) in [
        ("start", expected.start, figures.capacity),
        ("capacity", expected.capacity, MAX_CAPACITY),
    ] {
        let status = |figure| folder.line(&format!("plan request --{name} {figure}")).status;
        match enough {
            Some(enough) => assert_eq!((status(enough), status(enough - 1)), (Some(0), Some(1)), "{name}"),
            None => assert_eq!(status(largest), Some(1), "{name}"),
        }
    }
    let needed = Reference.needed(figures, lists.frames()).unwrap_or(0);
    let is_below = expected.capacity.map_or(false, |capacity| u64::from(capacity) < needed);
    count(&seen.below, is_below);
    count(&seen.nothing, expected.start.is_none() && expected.capacity.is_none());
    count(&seen.start, expected.start.is_some());
    count(&seen.capacity, expected.capacity.is_some());
    count(&seen.low, sentence.contains("they leave "));
}

/// Any request of a few frames, of which many have a least.
fn any_request() -> impl Strategy<Value = (Figures, Lists)> {
    let least = prop_oneof![2 => Just(0), 3 => 1..12u32];
    let frames = prop::collection::vec(
        (
            0..9u32,
            least,
            prop_oneof![3 => Just(None), 1 => (0..5u32).prop_map(Some)],
        ),
        1..9,
    );
    let end = prop_oneof![4 => 0..16u32, 1 => Just(u32::MAX)];
    (0..16u32, 0..16u32, end, frames).prop_map(|(capacity, start, end, frames)| {
        let most = |&(_, least, above): &(u32, u32, Option<u32>)| above.map_or(NO_UPPER_END, |above| least + above);
        let lists = Lists {
            harvest: frames.iter().map(|frame| frame.0).collect(),
            least: frames.iter().map(|frame| frame.1).collect(),
            most: frames.iter().map(most).collect(),
        };
        (
            Figures {
                capacity,
                start: start.min(capacity),
                end: end.min(capacity),
            },
            lists,
        )
    })
}

#[test]
fn every_figure_that_a_refusal_11_names_is_the_references() {
    let seen = Seen::default();
    check(500, any_request(), |(figures, lists)| {
        assert_says_what_would_do(figures, &lists, &seen);
        Ok(())
    });
    assert!(seen.all().into_iter().all(|seen| seen > 10), "{seen:?}");
}

/// A day of quarter hours with a battery of some kilowatt-hours, of which a few frames have a least.
fn any_day(random: &mut Random) -> (Figures, Lists) {
    let frames = 96;
    let mut lists = Lists::unbounded(random.list(frames, 400));
    for frame in 0..frames {
        if random.one_in(3) {
            lists.least[frame] = random.up_to_u32(1200);
        }
    }
    let capacity = 200 + random.up_to_u32(5000);
    let [start, end] = [(); 2].map(|()| random.up_to_u32(capacity));
    (Figures { capacity, start, end }, lists)
}

#[test]
fn every_figure_that_a_day_is_refused_with_is_the_references() {
    let seen = Seen::default();
    for case in 0..150 {
        let (figures, lists) = any_day(&mut Random::of_case(seed(), case));
        assert_says_what_would_do(figures, &lists, &seen);
    }
    assert!(seen.all().into_iter().all(|seen| seen > 0), "{seen:?}");
}

/// The request without its leasts.
fn bare(lists: &Lists) -> Lists {
    let least = vec![0; lists.count()];
    Lists { least, ..lists.clone() }
}

/// In how many frames behind so many budgets are below their leasts, in words.
fn outside(before: usize, lists: &Lists, budgets: &[u32]) -> String {
    let below: Vec<usize> = (before..lists.count())
        .filter(|&frame| budgets[frame] < lists.least[frame])
        .collect();
    let place = match below.len() {
        0 => return String::new(),
        1 => String::new(),
        several => format!("{several} frames, first in "),
    };
    let frame = below[0];
    let (number, budget, least) = (frame + 1, budgets[frame], lists.least[frame]);
    format!(
        "Not within the bounds in {place}frame {number}: its budget of {budget} Wh is below its least of {least} Wh.\n"
    )
}

/// Each line as it is told on standard error.
fn warned(lines: &str) -> String {
    lines.lines().map(|line| format!("gomzhiva: {line}\n")).collect()
}

const OUT_OF_REACH: &str = "capacity 5\nstart 2\nend 2\nharvest least\n6 -\n4 6\n0 -\n0 4\n5 -\n5 -\n";

#[test]
fn a_plan_without_the_leasts_shows_what_can_be_done() {
    let table = "\
frame  harvest  least  budget  charge  loss
    1        6      -       4       4     0
    2        4      6       3       5     0
    3        0      -       3       2     0
    4        0      4       2       0     0
    5        5      -       4       1     0
    6        5      -       4       2     0
";
    let below = "Not within the bounds in 2 frames, first in frame 2: its budget of 3 Wh is below its least of 6 Wh.";
    let words = format!(
        "\n6 frames: 20 Wh harvested, 20 Wh budgeted (mean 3.3, largest 4), 0 Wh lost.\n{below}\n\
         The charge goes from 2 to 2 Wh, and is at most 5 Wh after a frame, of a capacity of 5 Wh.\n\
         Without the leasts, a capacity of 6 Wh would serve every curve as well as unlimited storage.\n\
         Worth 320 480 100 by house curves 0, 1 and 2.\n"
    );
    let folder = Folder::new();
    folder.write("day.txt", OUT_OF_REACH);
    let shown = folder.line("plan --without-leasts day.txt");
    assert_eq!(
        (shown.status, shown.text(), shown.err.as_str()),
        (Some(0), format!("{table}{words}"), "")
    );
    let csv = "frame,harvest,least,budget,charge,loss\n1,6,,4,4,0\n2,4,6,3,5,0\n3,0,,3,2,0\n4,0,4,2,0,0\n5,5,,4,1,0\n6,5,,4,2,0\n";
    let warning = warned(below);
    let shown = folder.line("plan --without-leasts --csv day.txt");
    assert_eq!(
        (shown.status, shown.text().as_str(), &shown.err),
        (Some(0), csv, &warning)
    );
    let picture = folder.line("plan --without-leasts day.txt --chart -");
    assert_eq!((picture.status, &picture.err), (Some(0), &warning));
    for name in [
        "Plan of day.txt without its leasts",
        "needed capacity 6 Wh",
        "least budget (in 2 frames)",
    ] {
        assert!(picture.text().contains(&format!("\n{name}\n")), "{name}");
    }
    let beside = folder.line("plan --without-leasts --csv day.txt --chart day.svg");
    assert_eq!(
        (beside.text().as_str(), &beside.err, folder.read("day.svg")),
        (csv, &warning, picture.out)
    );
    // The table is the same request again.
    let figures = "--capacity 5 --start 2 --end 2";
    assert_eq!(
        folder.line_with(&format!("text - {figures}"), csv.as_bytes()).text(),
        OUT_OF_REACH
    );
    let listing = folder.line("plan --without-leasts --listing day.txt");
    assert_eq!((listing.status, listing.text().as_str()), (Some(2), ""));
    assert!(listing.err.contains("cannot be used with"), "{}", listing.err);
}

#[test]
fn a_plan_without_the_leasts_is_the_references_without_them() {
    let (refused, below, served) = (Cell::new(0), Cell::new(0), Cell::new(0));
    check(250, any_request(), |(figures, lists)| {
        let folder = Folder::new();
        folder.write("request", bounded_text(figures, lists.frames()));
        let bare = bare(&lists);
        let mut budgets = vec![0; lists.count()];
        let planned = Reference.plan(figures, bare.frames(), &mut budgets);
        let csv = folder.line("plan --without-leasts --csv request");
        let shown = folder.line("plan --without-leasts request");
        let picture = folder.line("plan --without-leasts request --chart -");
        if let Err(refusal) = planned {
            prop_assert!(
                matches!(refusal, Refusal::OutOfReach { .. }),
                "the leasts are not looked at"
            );
            for ran in [&csv, &shown, &picture] {
                prop_assert_eq!(ran.status, Some(1));
                prop_assert!(
                    ran.err.starts_with(&format!("gomzhiva: {}: ", refusal.line())),
                    "{}",
                    ran.err
                );
            }
            count(&refused, true);
            return Ok(());
        }
        let outside = outside(0, &lists, &budgets);
        count(&below, !outside.is_empty());
        count(&served, outside.is_empty());
        prop_assert_eq!(csv.text(), budget_table(0, figures, lists.frames(), &budgets));
        prop_assert_eq!((csv.status, csv.err), (Some(0), warned(&outside)));
        prop_assert_eq!((picture.status, &picture.err), (Some(0), &warned(&outside)));
        prop_assert_eq!((shown.status, shown.err.as_str()), (Some(0), ""));
        let needed = Reference.needed(figures, bare.frames()).expect("a needed capacity");
        let within = if bare.most.iter().all(|&most| most == NO_UPPER_END) {
            "Without the leasts"
        } else {
            "Within the mosts"
        };
        let serves =
            format!("{within}, a capacity of {needed} Wh would serve every curve as well as unlimited storage.\n");
        let (text, said) = (shown.text(), "Not within the bounds in ");
        prop_assert!(text.contains(&format!("\n{serves}")), "{}", text);
        prop_assert!(
            text.contains(&outside) && text.contains(said) != outside.is_empty(),
            "{}",
            text
        );
        let picture = picture.text();
        prop_assert!(picture.contains("\nPlan of request without its leasts\n"));
        let line = ["", " (above the picture)"].map(|place| format!("\nneeded capacity {needed} Wh{place}\n"));
        prop_assert!(line.iter().any(|line| picture.contains(line)), "{:?}", line);
        Ok(())
    });
    let seen = [refused, below, served].map(|seen| seen.get());
    assert!(seen.into_iter().all(|seen| seen > 3), "{seen:?}");
}

#[test]
fn bounds_that_cannot_be_are_those_without_the_leasts() {
    let folder = Folder::new();
    // A least above its most is none that counts here; a most above its limit is one.
    let crossed = "capacity 5\nstart 2\nend 2\nharvest least most\n6 4 3\n4 - -\n";
    assert_eq!(folder.line_with("plan -", crossed.as_bytes()).status, Some(1));
    let shown = folder.line_with("plan --without-leasts --csv -", crossed.as_bytes());
    let csv = "frame,harvest,least,most,budget,charge,loss\n1,6,4,3,3,5,0\n2,4,,,7,2,0\n";
    assert_eq!((shown.status, shown.text().as_str()), (Some(0), csv));
    let high = "capacity 5\nstart 2\nend 2\nharvest least most\n6 4 536870912\n4 - -\n";
    let sentence = "the most of frame 1 is 536870912 Wh, above the limit of 536870911 Wh";
    assert_refused(
        &folder.line_with("plan --without-leasts -", high.as_bytes()),
        true,
        "10 1",
        sentence,
    );
}

/// A shift that can be started, with leasts in some frames.
fn any_shift(random: &mut Random) -> Option<(Figures, Lists)> {
    let frames = 1 + random.up_to(6) as usize;
    let mut lists = Lists::unbounded(random.list(frames, 9));
    for frame in 0..frames {
        if random.one_in(2) {
            lists.least[frame] = random.up_to_u32(6);
        }
        if random.one_in(4) {
            lists.most[frame] = lists.least[frame] + random.up_to_u32(4);
        }
    }
    let capacity = random.up_to_u32(12);
    let [start, end] = [(); 2].map(|()| random.up_to_u32(capacity));
    let figures = Figures { capacity, start, end };
    Reference
        .shift_start(figures, lists.frames())
        .is_ok()
        .then(|| (figures, lists))
}

/// What the picture of a shift says of the needed capacity of what is left, as the reference has it; nothing where it is refused.
fn needed_line(shift: &Shift, lists: &Lists) -> String {
    let next = shift.now.recorded as usize;
    let rest = Frames {
        harvest: &lists.harvest[next..],
        least: &lists.least[next..],
        most: &lists.most[next..],
    };
    let name = if next == 0 {
        "needed capacity"
    } else {
        "needed capacity of the rest"
    };
    match Reference.needed(figures_now(shift), rest) {
        Ok(needed) => format!("{name} {needed} Wh"),
        Err(_) => name.to_string(),
    }
}

/// The plan of the rest without its leasts, as the logbook has it with leasts of 0, whatever the rest is with them.
fn assert_rest_without_leasts(folder: &Folder, logbook: &Logbook, lists: &Lists) -> Rest {
    let plan = |more: &str| folder.line(&format!("shift plan --without-leasts --journal journal{more}"));
    let (shift, mut budgets) = (logbook.record_now(), vec![0; lists.count()]);
    let rest = logbook
        .plan_rest(bare(lists).frames(), &mut budgets)
        .expect("a frame is left");
    let next = shift.now.recorded as usize;
    let (outside, short) = match rest {
        Rest::Planned => (outside(next, lists, &budgets), String::new()),
        Rest::Short { missing } => (outside(next, lists, &budgets), short(&shift, missing)),
    };
    assert_ne!(
        rest,
        Rest::Short { missing: 0 },
        "with nothing used the end charge is missed, or something is feasible"
    );
    let warnings = warned(&format!("{short}{outside}"));
    let csv = plan(" --csv");
    let table = budget_table(shift.now.recorded, figures_now(&shift), lists.frames(), &budgets);
    assert_eq!((csv.status, csv.text(), &csv.err), (Some(0), table, &warnings));
    let shown = plan("");
    let text = shown.text();
    let (_, words) = text.split_once("\n\n").expect("words");
    let (first, more) = words.split_once('\n').expect("a sentence");
    assert_eq!(
        (shown.status, more, shown.err.as_str()),
        (Some(0), outside.as_str(), "")
    );
    match rest {
        Rest::Planned => assert!(first.contains(" left: "), "{text}"),
        Rest::Short { .. } => assert_eq!(format!("{first}\n"), short),
    }
    let picture = plan(" --chart -");
    assert_eq!((picture.status, &picture.err), (Some(0), &warnings));
    let text = picture.text();
    assert!(text.contains("; the rest without its leasts"));
    let needed = needed_line(&shift, &bare(lists));
    let places = ["", " (above the picture)"].map(|place| format!("\n{needed}{place}\n"));
    let is_drawn = places.iter().any(|line| text.contains(line));
    assert_eq!(is_drawn, rest == Rest::Planned, "{needed}");
    assert_eq!(text.matches("\nneeded capacity").count(), usize::from(is_drawn));
    rest
}

#[test]
fn a_rest_without_the_leasts_is_the_logbooks_without_them() {
    let [mut cured, mut short, mut planned] = [0; 3];
    for case in 0..160 {
        let random = &mut Random::of_case(seed(), case);
        let (figures, lists) = match any_shift(random) {
            Some(shift) => shift,
            None => continue,
        };
        let folder = Folder::new();
        let request = bounded_text(figures, lists.frames());
        assert_eq!(
            folder
                .line_with("shift start - --journal journal", request.as_bytes())
                .status,
            Some(0)
        );
        let mut logbook = Logbook::open(figures, lists.count());
        for _ in 0..lists.count() {
            let journal = folder.read("journal");
            let kept = logbook.plan_rest(lists.frames(), &mut vec![0; lists.count()]);
            match (kept, assert_rest_without_leasts(&folder, &logbook, &lists)) {
                (Ok(Rest::Short { missing: 0 }), Rest::Planned) => cured += 1,
                (Ok(Rest::Short { .. }), Rest::Short { .. }) => short += 1,
                (Ok(Rest::Planned), Rest::Planned) => planned += 1,
                other => panic!("{other:?}"),
            }
            assert_eq!(folder.read("journal"), journal, "looking changes nothing");
            let (harvest, charge) = (random.up_to_u32(6), logbook.record_now().now.charge);
            let used = random.up_to_u32(charge + harvest);
            let recorded = folder.line(&format!("shift record {harvest} {used} --journal journal"));
            assert_eq!(recorded.status, Some(0));
            logbook.record(harvest, used).expect("as much as there is");
        }
        let done = folder.line("shift plan --without-leasts --journal journal");
        assert_refused(&done, true, "20 0", "every frame is recorded already");
    }
    assert!(cured > 10 && short > 10 && planned > 10, "{cured} {short} {planned}");
}
