//! Shifts over their journals: what is answered and kept, torn and damaged journals, several writers.

mod common;

use common::{
    bounded_text, budget_table, column, doubt, figures_now, leasts_fail, next, on, recorded_table, request_text, short,
    standing, Bounds, Folder, Ran, DAY, ON_JOURNAL,
};
use energy::{Energy, Figures, Frames, Rest, Shift, MAX_FRAMES, NO_UPPER_END};
use evidence::lists::Lists;
use evidence::random::{seed, Random};
use evidence::reference::logbook::Logbook;
use evidence::reference::Reference;
use rustix::fs::{flock, FlockOperation};
use std::fs::{self, File};
use std::io::Write;
use std::os::unix::io::OwnedFd;
use std::os::unix::net::UnixStream;
use std::process::Stdio;
use std::thread;
use std::time::Duration;

const SHOW: [&str; 5] = ["shift", "show", "--csv", "--journal", "journal"];
const PLAN: [&str; 4] = ["shift", "plan", "--journal", "journal"];
const CHART: [&str; 4] = ["shift", "chart", "--journal", "journal"];

fn start(folder: &Folder, request: &str) -> Ran {
    folder.run_with(&["shift", "start", "-", "--journal", "journal"], request.as_bytes())
}

fn record(folder: &Folder, harvest: u32, used: u32) -> Ran {
    let (harvest, used) = (harvest.to_string(), used.to_string());
    folder.run(&["shift", "record", &harvest, &used, "--journal", "journal"])
}

/// The day's shift with two frames recorded.
fn folder_of_a_shift() -> Folder {
    let folder = Folder::new();
    assert_eq!(start(&folder, DAY).status, Some(0));
    assert_eq!(record(&folder, 1, 3).status, Some(0));
    assert_eq!(record(&folder, 14, 2).status, Some(0));
    folder
}

const SHOWN: &str = "frame,harvest,use,charge,loss\n1,1,3,0,0\n2,14,2,5,7\n";

fn done(out: &str) -> (Option<i32>, String, String) {
    (Some(0), out.to_string(), String::new())
}

fn told(ran: Ran) -> (Option<i32>, String, String) {
    (ran.status, ran.text(), ran.err)
}

#[test]
fn a_shift_from_its_start_to_its_end() {
    let folder = folder_of_a_shift();
    let plan = "\
frame  harvest  budget  charge  loss
    3        0       3       2     0
    4        0       2       0     0
    5        5       4       1     0
    6        5       4       2     0

4 frames left: 10 Wh expected, 13 Wh budgeted (mean 3.2), 0 Wh lost. The charge goes from 5 to 2 Wh.
";
    assert_eq!(told(folder.run(&PLAN)), done(plan));
    let csv = "frame,harvest,budget,charge,loss\n3,0,3,2,0\n4,0,2,0,0\n5,5,4,1,0\n6,5,4,2,0\n";
    assert_eq!(told(folder.run(&[&PLAN[..], &["--csv"]].concat())), done(csv));
    let standing = "2 of 6 frames recorded; charge 5 Wh of a capacity of 5 Wh; 15 Wh harvested, 5 Wh used, 7 Wh lost.";
    let table = "\
frame  harvest  use  charge  loss
    1        1    3       0     0
    2       14    2       5     7
";
    let shown = folder.run(&["shift", "show", "--journal", "journal"]);
    assert_eq!(told(shown), done(&format!("{table}\n{standing}\n")));
    assert_eq!(told(folder.run(&SHOW)), done(SHOWN));

    for (harvest, used) in [(0, 5), (0, 0), (0, 0), (4, 4)] {
        assert_eq!(record(&folder, harvest, used).status, Some(0));
    }
    for arguments in [&PLAN[..], &["shift", "record", "0", "0", "--journal", "journal"]] {
        let refused = folder.run(arguments);
        assert_eq!((refused.status, refused.text().as_str()), (Some(1), "refused 20 0\n"));
        assert_eq!(refused.err, "gomzhiva: refused 20 0: every frame is recorded already\n");
    }
    let silent = folder.run(&[&PLAN[..], &["--csv"]].concat());
    assert_eq!((silent.status, silent.text().as_str()), (Some(1), ""));
    assert_eq!(folder.run(&CHART).status, Some(0), "a finished shift has its picture");
}

#[test]
fn a_rest_that_is_short_says_by_how_much() {
    let folder = Folder::new();
    assert_eq!(start(&folder, &request_text(9, 3, 8, &[4, 1])).status, Some(0));
    assert_eq!(record(&folder, 2, 0).status, Some(0));
    let short = folder.run(&PLAN);
    assert_eq!(
        told(short),
        done(
            "frame  harvest  budget  charge  loss\n    2        1       0       6     0\n\n\
             Short: with nothing used in the 1 frame left, the end charge of 8 Wh is still missed by 2 Wh, so every budget is 0.\n"
        )
    );
    let picture = folder.run(&CHART);
    assert!(picture
        .text()
        .contains("Shift: 1 of 2 frames recorded; the rest is short by 2 Wh"));
    assert_eq!(
        (picture.status, picture.err.as_str()),
        (Some(0), "gomzhiva: the rest is short by 2 Wh\n")
    );
    assert_eq!(record(&folder, 0, 0).status, Some(0));
    let missed = "the charge ends at 5 Wh, below the end charge of 8 Wh";
    let picture = folder.run(&CHART);
    assert!(picture
        .text()
        .contains(&format!("Shift: 2 of 2 frames recorded; {missed}")));
    assert_eq!(picture.err, format!("gomzhiva: {missed}\n"));
    assert_eq!(folder.run(&SHOW).err, format!("gomzhiva: {missed}\n"));
}

/// The day's request with bounds: its sieves need 3 Wh in frame 4, its motors take 3, 1 and 4 Wh in frames 1, 3 and 6.
const BOUNDED: &str = "capacity 5\nstart 2\nend 2\nharvest least most\n6 - 3\n4 - -\n0 - 1\n0 3 -\n5 - -\n5 - 4\n";

#[test]
fn a_shift_keeps_its_bounds_from_its_start_to_its_end() {
    let folder = Folder::new();
    assert_eq!(start(&folder, BOUNDED).status, Some(0));
    let line = "start capacity 5 start 2 end 2 harvest 6 4 0 0 5 5 least - - - 3 - - most 3 - 1 - - 4";
    assert_eq!(calls(&folder), [line]);
    let nothing = "frame,harvest,least,most,use,charge,loss\n";
    assert_eq!(told(folder.run(&SHOW)), done(nothing), "no frame is recorded");
    assert_eq!(record(&folder, 1, 3).status, Some(0));
    let one = format!("{nothing}1,1,,3,3,0,0\n");
    assert_eq!(told(folder.run(&SHOW)), done(&one), "no frame with a least is recorded");
    let plan = "\
frame  harvest  least  most  budget  charge  loss
    2        4      -     -       1       3     0
    3        0      -     1       0       3     0
    4        0      3     -       3       0     0
    5        5      -     -       4       1     0
    6        5      -     4       4       2     0

5 frames left: 14 Wh expected, 12 Wh budgeted (mean 2.4), 0 Wh lost. The charge goes from 0 to 2 Wh.
";
    assert_eq!(told(folder.run(&PLAN)), done(plan));
    let csv = "frame,harvest,least,most,budget,charge,loss\n2,4,,,1,3,0\n3,0,,1,0,3,0\n4,0,3,,3,0,0\n5,5,,,4,1,0\n6,5,,4,4,2,0\n";
    assert_eq!(told(folder.run(&[&PLAN[..], &["--csv"]].concat())), done(csv));
    // Use is not bounded: 3 Wh where a most is 1 Wh, and nothing where a least is 3 Wh.
    for (harvest, used) in [(5, 0), (0, 3), (5, 0)] {
        assert_eq!(record(&folder, harvest, used).status, Some(0));
    }
    let shown = "\
frame  harvest  least  most  use  charge  loss
    1        1      -     3    3       0     0
    2        5      -     -    0       5     0
    3        0      -     1    3       2     0
    4        5      3     -    0       5     2

4 of 6 frames recorded; charge 5 Wh of a capacity of 5 Wh; 11 Wh harvested, 6 Wh used, 2 Wh lost.
";
    assert_eq!(
        told(folder.run(&["shift", "show", "--journal", "journal"])),
        done(shown)
    );
    let rows = "frame,harvest,least,most,use,charge,loss\n1,1,,3,3,0,0\n2,5,,,0,5,0\n3,0,,1,3,2,0\n4,5,3,,0,5,2\n";
    assert_eq!(told(folder.run(&SHOW)), done(rows));
    // What happened is a request again, with the bounds that its frames had.
    let figures = ["--capacity", "5", "--start", "2", "--end", "2"];
    let text = folder.run_with(&[&["text", "-"], &figures[..]].concat(), rows.as_bytes());
    let hindsight = "capacity 5\nstart 2\nend 2\nharvest least most\n1 - 3\n5 - -\n0 - 1\n5 3 -\n";
    assert_eq!(told(text), done(hindsight));
    // No frame that is left has a least, and the column stays.
    let rest = "\
frame  harvest  least  most  budget  charge  loss
    5        5      -     -       9       1     0
    6        5      -     4       4       2     0

2 frames left: 10 Wh expected, 13 Wh budgeted (mean 6.5), 0 Wh lost. The charge goes from 5 to 2 Wh.
";
    assert_eq!(told(folder.run(&PLAN)), done(rest));
    let rest = "frame,harvest,least,most,budget,charge,loss\n5,5,,,9,1,0\n6,5,,4,4,2,0\n";
    assert_eq!(told(folder.run(&[&PLAN[..], &["--csv"]].concat())), done(rest));
}

#[test]
fn a_rest_may_have_to_lose_and_to_end_above_its_end_charge() {
    let folder = Folder::new();
    let request = "capacity 5\nstart 2\nend 2\nharvest most\n6 -\n4 1\n4 2\n";
    assert_eq!(start(&folder, request).status, Some(0));
    assert_eq!(record(&folder, 6, 4).status, Some(0));
    let plan = "\
frame  harvest  most  budget  charge  loss
    2        4     1       1       5     2
    3        4     2       2       5     2

2 frames left: 8 Wh expected, 3 Wh budgeted (mean 1.5), 4 Wh lost that the full battery could not take. \
The charge goes from 4 to 5 Wh, where 2 Wh were asked for.
";
    assert_eq!(told(folder.run(&PLAN)), done(plan));
}

#[test]
fn a_rest_in_which_nothing_is_feasible_is_short_by_what_the_end_charge_misses() {
    let zeros = "so every budget is 0";
    // Frame 4 needs 3 Wh that nothing gives: the end charge is reached, and by nothing missed.
    let folder = Folder::new();
    assert_eq!(start(&folder, BOUNDED).status, Some(0));
    for (harvest, used) in [(1, 3), (0, 0)] {
        assert_eq!(record(&folder, harvest, used).status, Some(0));
    }
    let reached = format!(
        "Short: nothing within the bounds of the 4 frames left is feasible, {zeros}; \
         with nothing used, the end charge of 2 Wh is reached."
    );
    let csv = "frame,harvest,least,most,budget,charge,loss\n3,0,,1,0,0,0\n4,0,3,,0,0,0\n5,5,,,0,5,0\n6,5,,4,0,5,5\n";
    let leasts = "As budgets the leasts run the store dry in frame 4, with 3 Wh missing there; \
                  `--without-leasts` plans what can be done without them.";
    let warnings = format!("gomzhiva: {reached}\ngomzhiva: {leasts}\n");
    let spreadsheet = (Some(0), csv.to_string(), warnings);
    assert_eq!(told(folder.run(&[&PLAN[..], &["--csv"]].concat())), spreadsheet);
    let words = told(folder.run(&PLAN));
    assert!(
        words.1.ends_with(&format!("\n\n{reached}\n{leasts}\n")) && words.2.is_empty(),
        "{words:?}"
    );
    let picture = folder.run(&CHART);
    let warning = "the rest is short: nothing within its bounds is feasible";
    assert!(picture
        .text()
        .contains(&format!("Shift: 2 of 6 frames recorded; {warning}")));
    assert_eq!(
        (picture.status, picture.err),
        (Some(0), format!("gomzhiva: {warning}\n"))
    );
    // The least is out of reach, and so is the end charge.
    let folder = Folder::new();
    let request = "capacity 9\nstart 3\nend 7\nharvest least\n9 -\n1 3\n";
    assert_eq!(start(&folder, request).status, Some(0));
    assert_eq!(record(&folder, 2, 1).status, Some(0));
    let missed = format!(
        "Short: with nothing used in the 1 frame left, the end charge of 7 Wh is still missed by 2 Wh, {zeros}."
    );
    let table = "frame  harvest  least  budget  charge  loss\n    2        1      3       0       5     0\n";
    let leasts = "As budgets the leasts leave 2 Wh, and 7 Wh were asked for.";
    assert_eq!(told(folder.run(&PLAN)), done(&format!("{table}\n{missed}\n{leasts}\n")));
    assert_eq!(folder.run(&CHART).err, "gomzhiva: the rest is short by 2 Wh\n");
}

/// A journal as it was before there were bounds.
const OLD_JOURNAL: &str =
    "start capacity 5 start 2 end 2 harvest 6 4 0 0 5 5 *e637905d\nrecord 1 3 *f11fcd2b\nrecord 14 2 *4cd54801\n";

#[test]
fn a_journal_from_before_there_were_bounds_goes_on() {
    let folder = Folder::new();
    folder.write("journal", OLD_JOURNAL);
    assert_eq!(told(folder.run(&SHOW)), done(SHOWN));
    assert_eq!(
        folder_of_a_shift().read("journal"),
        OLD_JOURNAL.as_bytes(),
        "a shift without bounds is kept as before"
    );
    assert_eq!(record(&folder, 0, 3).status, Some(0));
    assert_eq!(calls(&folder).len(), 4);
}

#[test]
fn a_picture_shows_the_bounds_of_recorded_and_planned_frames() {
    let folder = Folder::new();
    assert_eq!(start(&folder, BOUNDED).status, Some(0));
    assert_eq!(record(&folder, 1, 3).status, Some(0));
    let text = folder.run(&CHART).text();
    for name in [
        "least budget (in 1 frame)",
        "most budget (in 3 frames)",
        "needed capacity of the rest 3 Wh",
    ] {
        assert!(text.contains(&format!("\n{name}\n")), "{name}");
    }
    // The mosts of frames 1, 3 and 6 and the least of frame 4, each a bracket that is nearly as wide as its frame.
    let brackets = |colour: &str| -> Vec<Vec<i32>> {
        let drawn = text.lines().filter(|line| line.contains(colour)).skip(1);
        drawn.map(columns_of).collect()
    };
    let now = number_behind(&text, "\nnow\n", "x");
    let (most, least) = (brackets("#286EC8"), brackets("#148C5A"));
    let gap = now - most[0][1];
    assert!((0..=5).contains(&gap), "frame 1 is recorded, and ends now: {gap}");
    let begin = most[0][0] - gap;
    let frame = |number: i32| {
        let edge = |frames: i32| begin + (now - begin) * frames;
        [edge(number - 1), edge(number)]
    };
    for (bracket, number) in most.iter().chain(&least).zip([1, 3, 6, 4]) {
        let [left, right] = frame(number);
        assert!(
            (bracket[0] - left - gap).abs() <= 6 && (bracket[1] - right + gap).abs() <= 6,
            "{bracket:?} of frame {number}"
        );
    }
    assert_eq!((most.len(), least.len()), (3, 1));
}

/// The places from left to right of the points of a line.
fn columns_of(line: &str) -> Vec<i32> {
    let points = line.split("points=\"").nth(1).and_then(|rest| rest.split('"').next());
    let across = |point: &str| {
        point
            .split(',')
            .next()
            .expect("a place")
            .parse()
            .expect("a whole number")
    };
    points
        .expect("a line of points")
        .split_whitespace()
        .map(across)
        .collect()
}

#[test]
fn nothing_takes_a_journals_place() {
    let folder = folder_of_a_shift();
    let before = folder.read("journal");
    folder.write("day.txt", DAY);
    for command in [
        "shift chart journal --journal ./journal",
        "plan day.txt --chart journal",
        "words day.txt journal",
        "text day.txt journal",
        "shift show --journal journal >>journal",
        "shift record 0 0 --journal journal >>journal",
        "plan day.txt >>journal",
        "text day.txt /dev/stdout >>journal",
    ] {
        let ran = folder.shell(&format!("gomzhiva {command}"));
        assert!(
            ran.err.ends_with(" is expected; nothing is written\n"),
            "{command}: {}",
            ran.err
        );
        assert_eq!(
            (ran.status, folder.read("journal")),
            (Some(2), before.clone()),
            "{command}"
        );
    }
}

#[test]
fn a_picture_shows_what_happened_and_what_is_planned() {
    let folder = folder_of_a_shift();
    let drawn = folder.run(&["shift", "chart", "shift.svg", "--journal", "journal"]);
    assert_eq!(told(drawn), done(""));
    let picture = folder.run(&CHART);
    assert_eq!(picture.out, folder.read("shift.svg"));
    let text = picture.text();
    assert!(text.starts_with("<svg ") && text.ends_with("</svg>\n"));
    for name in [
        "Shift: 2 of 6 frames recorded",
        "recorded up to frame 2, planned from frame 3",
        "now",
        "of it lost to a full battery (7 Wh in all)",
    ] {
        assert!(text.contains(name), "{name}");
    }
    // The striped part of frame 2, the last one recorded: left of now by less than its own width.
    let (lost, now) = (
        number_behind(&text, "url(#lost)", "x"),
        number_behind(&text, "\nnow\n", "x"),
    );
    let width = number_behind(&text, "url(#lost)", "width");
    assert!((now - width..now).contains(&(lost + width)), "{lost} {width} {now}");
}

/// A number in the last tag of a picture that has this text in it or behind it.
fn number_behind(picture: &str, text: &str, name: &str) -> i32 {
    let end = picture.rfind(text).expect("the text stands in the picture");
    let tag = &picture[picture[..end].rfind('<').expect("a tag")..];
    let value = tag
        .split(&format!(" {name}=\""))
        .nth(1)
        .and_then(|rest| rest.split('"').next());
    value
        .expect("the number stands in the tag")
        .parse()
        .expect("a whole number")
}

/// The calls in a journal, without their checksums.
fn calls(folder: &Folder) -> Vec<String> {
    let text = String::from_utf8(folder.read("journal")).expect("a journal is text");
    let call = |line: &str| line.split_once(" *").expect("a checksum").0.to_string();
    text.lines().map(call).collect()
}

/// The plan of the rest as a table, from the logbook's budgets.
fn rest_table(shift: &Shift, forecast: &Lists, budgets: &[u32]) -> String {
    budget_table(shift.now.recorded, figures_now(shift), forecast.frames(), budgets)
}

/// A table for people as the one for a spreadsheet: a cell without a bound is empty there.
fn as_csv(table: &str) -> String {
    let cell = |cell: &str| if cell == "-" { String::new() } else { cell.to_string() };
    let line = |line: &str| line.split_whitespace().map(cell).collect::<Vec<_>>().join(",") + "\n";
    table.lines().map(line).collect()
}

/// What stands under the table of a rest that is short, a sentence a line: what the end charge misses, and how the leasts
/// fail if some frame that is left has one.
fn short_words(shift: &Shift, forecast: &Lists, missing: u64) -> String {
    let next = shift.now.recorded as usize;
    let rest = Frames {
        harvest: &forecast.harvest[next..],
        least: &forecast.least[next..],
        most: &forecast.most[next..],
    };
    let short = short(shift, missing);
    if rest.least.iter().all(|&least| least == 0) {
        return short;
    }
    let advice = match missing {
        0 => "; `--without-leasts` plans what can be done without them",
        _ => "",
    };
    let leasts = leasts_fail(next, figures_now(shift), rest);
    format!("{short}As budgets the leasts {leasts}{advice}.\n")
}

/// A forecast, in half of all cases with bounds in some frames.
fn any_forecast(random: &mut Random) -> Lists {
    let frames = 1 + random.up_to(6) as usize;
    let mut forecast = Lists::unbounded(random.list(frames, 9));
    if random.one_in(2) {
        for frame in 0..frames {
            if random.one_in(2) {
                forecast.least[frame] = random.up_to_u32(5);
            }
            if random.one_in(3) {
                forecast.most[frame] = forecast.least[frame] + random.up_to_u32(4);
            }
        }
    }
    forecast
}

/// The lists of bounds in the line of a start.
fn bound_words(frames: Frames) -> String {
    let bounds = [(frames.least, 0, "least"), (frames.most, NO_UPPER_END, "most")];
    let given = bounds
        .into_iter()
        .filter(|(list, none, _)| list.iter().any(|n| n != none));
    let shown = |n: u32, none: u32| if n == none { " -".to_string() } else { format!(" {n}") };
    let words = |(list, none, name): (&[u32], u32, &str)| {
        let list: String = list.iter().map(|&n| shown(n, none)).collect();
        format!(" {name}{list}")
    };
    given.map(words).collect()
}

/// How often a rest was short of something and of nothing, how often its leasts ran the store dry and left too little, how
/// often a plan had bounds, and which doubts there were.
#[derive(Default, Debug)]
struct Seen {
    missing: u32,
    nothing: u32,
    dry: u32,
    low: u32,
    bounded: u32,
    below: u32,
    above: u32,
    far: u32,
    surely: u32,
}

impl Seen {
    fn doubt(&mut self, doubt: &str) {
        let kinds = [
            ("is below the least", &mut self.below),
            ("is above the most", &mut self.above),
            ("is more than twice the budget", &mut self.far),
            ("", &mut self.surely),
        ];
        let seen = kinds.into_iter().find(|(words, _)| doubt.contains(words));
        *seen.expect("a kind").1 += 1;
    }

    fn everything(&self) -> bool {
        let shorts = [self.missing, self.nothing, self.dry, self.low, self.bounded];
        let doubts = [self.below, self.above, self.far, self.surely];
        shorts.into_iter().chain(doubts).all(|seen| seen > 0)
    }
}

/// A shift's calls, refused ones among them: each is answered as the logbook says, and the journal holds the accepted ones.
fn assert_logbooks(random: &mut Random, seen: &mut Seen) {
    let folder = Folder::new();
    let forecast = any_forecast(random);
    let frames = forecast.count();
    let capacity = random.up_to_u32(12);
    let figures = Figures {
        capacity,
        start: random.up_to_u32(capacity),
        end: random.up_to_u32(capacity),
    };
    let started = start(&folder, &bounded_text(figures, forecast.frames()));
    if let Err(refusal) = Reference.shift_start(figures, forecast.frames()) {
        assert_eq!((started.status, started.text()), (Some(1), refusal.line() + "\n"));
        assert!(folder.names().is_empty());
        return;
    }
    let mut logbook = Logbook::open(figures, frames);
    assert_eq!(
        told(started),
        done(&format!(
            "Started. {}{}",
            standing(&logbook.record_now()),
            next(&logbook, forecast.frames())
        ))
    );
    let line = column(&forecast.harvest).trim_end().replace('\n', " ");
    let mut accepted = vec![format!(
        "start capacity {capacity} start {} end {} harvest {line}{}",
        figures.start,
        figures.end,
        bound_words(forecast.frames())
    )];
    let mut records = vec![logbook.record_now()];
    // A dark day is one on which the leasts are out of reach.
    let sun = *random.pick(&[12, 3]);
    for _ in 0..2 * frames + 2 {
        let harvest = if random.one_in(8) {
            400_001
        } else {
            random.up_to_u32(sun)
        };
        let shift_before = logbook.record_now();
        let used = random.up_to_u32(shift_before.now.charge + harvest.min(12) + 2);
        let before = folder.read("journal");
        let logbook_before = logbook.clone();
        let recorded = record(&folder, harvest, used);
        match logbook.record(harvest, used) {
            Ok(()) => {
                let shift = logbook.record_now();
                let next = next(&logbook, forecast.frames());
                let answer = format!("Recorded frame {}. {}{next}", shift.now.recorded, standing(&shift));
                let doubt = doubt(&logbook_before, forecast.frames(), used);
                seen.doubt(&doubt);
                assert_eq!(told(recorded), (Some(0), answer, doubt));
                accepted.push(format!("record {harvest} {used}"));
                records.push(shift);
            }
            Err(refusal) => {
                assert_eq!((recorded.status, recorded.text()), (Some(1), refusal.line() + "\n"));
                let sentence = recorded.err.strip_prefix(&format!("gomzhiva: {}: ", refusal.line()));
                let lines = sentence.map(|sentence| sentence.lines().count());
                assert_eq!(lines, Some(1), "nothing else is told: {}", recorded.err);
                assert_eq!(folder.read("journal"), before, "a refused call is not written");
            }
        }
        let mut budgets = vec![0; frames];
        let plan = folder.run(&[&PLAN[..], &["--csv"]].concat());
        match logbook.plan_rest(forecast.frames(), &mut budgets) {
            Ok(rest) => {
                let table = rest_table(&logbook.record_now(), &forecast, &budgets);
                assert_eq!((plan.status, plan.text()), (Some(0), table));
                let text = folder.run(&PLAN).text();
                let (table, words) = text.split_once("\n\n").expect("words");
                assert_eq!(as_csv(table), plan.text(), "people have the same columns");
                let short = match rest {
                    Rest::Planned => String::new(),
                    Rest::Short { missing } => short_words(&logbook.record_now(), &forecast, missing),
                };
                if rest == Rest::Planned {
                    assert!(words.contains(" left: ") && words.lines().count() == 1, "{words}");
                } else {
                    assert_eq!(words, short);
                }
                let warnings: String = short.lines().map(|line| format!("gomzhiva: {line}\n")).collect();
                assert_eq!(plan.err, warnings, "a short rest is told beside its zeros");
                seen.dry += u32::from(short.contains("run the store dry"));
                seen.low += u32::from(short.contains("the leasts leave"));
                match rest {
                    Rest::Planned => seen.bounded += u32::from(!Bounds::of(forecast.frames()).names(" ").is_empty()),
                    Rest::Short { missing: 0 } => seen.nothing += 1,
                    Rest::Short { .. } => seen.missing += 1,
                }
            }
            Err(refusal) => {
                assert_eq!(plan.status, Some(1));
                assert!(plan.err.starts_with(&format!("gomzhiva: {}: ", refusal.line())));
            }
        }
        assert_eq!(calls(&folder), accepted);
        let shown = folder.run(&SHOW);
        let rows = recorded_table(&records, forecast.frames());
        let text = folder.run(&["shift", "show", "--journal", "journal"]).text();
        let (table, _) = text.split_once("\n\n").expect("words");
        assert_eq!(as_csv(table), rows, "people have the same columns");
        assert_eq!((shown.status, shown.text()), (Some(0), rows));
        let shift = logbook.record_now();
        let missed = shift.now.recorded == shift.terms.frames && shift.now.charge < shift.terms.end;
        assert_eq!(shown.err.contains("below the end charge"), missed);
    }
    assert!(logbook.balances());
}

#[test]
fn every_call_is_answered_as_the_logbook_says() {
    let mut seen = Seen::default();
    (0..90).for_each(|case| assert_logbooks(&mut Random::of_case(seed(), case), &mut seen));
    assert!(seen.everything(), "{seen:?}");
}

#[test]
fn a_frame_that_is_not_the_next_is_not_recorded() {
    let folder = folder_of_a_shift();
    let before = folder.read("journal");
    let record = |frame: &str| folder.run(&["shift", "record", "1", "1", "--frame", frame, "--journal", "journal"]);
    for frame in ["0", "2", "4"] {
        let ran = record(frame);
        let message = format!("gomzhiva: --frame {frame}: the next frame is 3; nothing is recorded\n");
        assert_eq!(told(ran), (Some(2), String::new(), message));
        assert_eq!(folder.read("journal"), before);
    }
    for frame in ["3", "4", "5", "6"] {
        assert!(record(frame).text().starts_with(&format!("Recorded frame {frame}. ")));
    }
    let after = record("6");
    assert_eq!((after.status, after.text().as_str()), (Some(1), "refused 20 0\n"));
}

#[test]
fn a_torn_last_line_is_left_out_with_a_notice() {
    let folder = folder_of_a_shift();
    let whole = folder.read("journal");
    let kept = whole.len()
        - 1
        - whole
            .iter()
            .rev()
            .skip(1)
            .position(|&b| b == b'\n')
            .expect("three lines");
    for length in kept..whole.len() - 1 {
        for zeros in [0, 5] {
            let torn = [&whole[..length], &vec![0; zeros]].concat();
            folder.write("journal", &torn);
            let notice = if torn.len() > kept {
                "journal:3:1: left out a torn last line: its recording was never answered\n"
            } else {
                ""
            };
            let rows = "frame,harvest,use,charge,loss\n1,1,3,0,0\n".to_string();
            assert_eq!(told(folder.run(&SHOW)), (Some(0), rows, notice.to_string()));
            assert_eq!(folder.read("journal"), torn, "looking changes nothing");
            let again = record(&folder, 14, 2);
            assert_eq!((again.status, again.err.as_str()), (Some(0), notice));
            assert_eq!(folder.read("journal"), whole);
        }
    }
}

#[test]
fn a_last_line_that_lacks_only_its_end_counts() {
    let folder = folder_of_a_shift();
    assert_eq!(record(&folder, 0, 0).status, Some(0));
    let whole = folder.read("journal");
    let two = folder_of_a_shift().read("journal");
    for unended in [two[..two.len() - 1].to_vec(), [&two[..two.len() - 1], &[0; 7]].concat()] {
        folder.write("journal", &unended);
        assert_eq!(told(folder.run(&SHOW)), done(SHOWN));
        assert_eq!(folder.read("journal"), unended, "looking changes nothing");
        assert_eq!(record(&folder, 0, 0).status, Some(0));
        assert_eq!(folder.read("journal"), whole);
    }
    let first = whole.iter().position(|&b| b == b'\n').expect("a line");
    folder.write("journal", &whole[..first]);
    assert_eq!(told(folder.run(&SHOW)), done("frame,harvest,use,charge,loss\n"));
    assert_eq!(record(&folder, 1, 3).status, Some(0));
    assert_eq!(calls(&folder).len(), 2);
}

/// Every command on the journal is refused at this line, and the journal stays as it is.
fn assert_damaged(folder: &Folder, line: usize) {
    let before = folder.read("journal");
    let place = format!("journal:{line}:1: ");
    for command in ON_JOURNAL {
        let ran = folder.run(&on(command, "journal"));
        assert_eq!((ran.status, ran.text().as_str()), (Some(2), ""), "{before:?}");
        assert!(
            ran.err.starts_with(&place) && ran.err.contains(" is expected, found "),
            "{}",
            ran.err
        );
    }
    assert_eq!(folder.read("journal"), before);
    assert_eq!(folder.names(), ["journal"]);
}

#[test]
fn every_damage_is_refused_with_its_line() {
    let folder = folder_of_a_shift();
    let whole = folder.read("journal");
    let mut line = 1;
    for (i, byte) in whole.iter().enumerate() {
        let mut damaged = whole.clone();
        damaged[i] = if *byte == b'1' { b'2' } else { b'1' };
        folder.write("journal", damaged);
        assert_damaged(&folder, line);
        line += usize::from(*byte == b'\n');
    }
    let text = String::from_utf8(whole).expect("a journal is text");
    let lines: Vec<&str> = text.split_inclusive('\n').collect();
    let (first, second, third) = (lines[0], lines[1], lines[2]);
    for (damaged, line) in [
        (format!("{first}{third}"), 2),
        (format!("{first}{third}{second}"), 2),
        (format!("{second}{third}"), 1),
        (format!("{first}{first}"), 2),
        (format!("{text}{third}"), 4),
        (format!("{text}\n"), 4),
        (format!("{first}\n{second}{third}"), 2),
        (format!("{text}start"), 4),
        (format!("{text}record 1 x"), 4),
        (format!("{text}record 1 2 *00000000"), 4),
        (text.replace('\n', "\r\n"), 1),
        (format!("\u{feff}{text}"), 1),
        (text.trim_end().replace('\n', " "), 1),
        (first.trim_end().replace("harvest 6", "harvest 7"), 1),
        (first[..first.len() - 2].to_string(), 1),
    ] {
        folder.write("journal", damaged);
        assert_damaged(&folder, line);
    }
}

/// The first line of a journal, with its checksum.
fn sealed(call: &str) -> String {
    format!("{call} *{:08x}\n", crc32fast::hash(call.as_bytes()))
}

#[test]
fn bounds_that_no_start_writes_are_damage() {
    let folder = Folder::new();
    let call = |lists: &str| format!("start capacity 5 start 2 end 2 harvest 6 4{lists}");
    folder.write("journal", sealed(&call(" least - 3 most 5 -")));
    assert_eq!(folder.run(&PLAN).status, Some(0), "as a start writes them");
    for lists in [
        " least 3",
        " least - 3 -",
        " least - -",
        " most 5",
        " most - 4294967295",
        " least 0 3",
        " most 5 - least - 3",
        " least - 3 most",
        " least - x",
        " budget 4 3",
    ] {
        folder.write("journal", sealed(&call(lists)));
        assert_damaged(&folder, 1);
    }
}

#[test]
fn a_journal_of_a_longer_shift_than_there_may_be_is_refused() {
    let folder = Folder::new();
    let call = format!("start capacity 5 start 2 end 2 harvest{}", " 1".repeat(MAX_FRAMES + 1));
    folder.write("journal", sealed(&call));
    let before = folder.read("journal");
    for command in ON_JOURNAL {
        let ran = folder.run(&on(command, "journal"));
        let refused = "gomzhiva: refused 2 0: there are 673 frames, above the limit of 672";
        let told = format!("{refused}; journal starts such a shift, and stays as it is\n");
        assert_eq!((ran.status, ran.err), (Some(1), told));
    }
    assert_eq!(folder.read("journal"), before);
    assert_eq!(folder.names(), ["journal"]);
}

#[test]
fn a_journal_whose_bounds_are_refused_says_which_they_are() {
    let folder = Folder::new();
    for (start, refused) in [
        (
            "start capacity 5 start 2 end 2 harvest 6 4 least - 3 most - 1",
            "refused 10 2: the least of frame 2 is 3 Wh, above its most of 1 Wh",
        ),
        (
            "start capacity 2 start 0 end 0 harvest 6 0 least - 5",
            "refused 11 0: the leasts are out of reach: as budgets they run the store dry in frame 2, \
             with 3 Wh missing there; a capacity of 5 Wh would be enough",
        ),
        (
            "start capacity 2 start 0 end 0 harvest 1 4 least 4 -",
            "refused 11 0: the leasts are out of reach: as budgets they run the store dry in frame 1, \
             with 3 Wh missing there; no start charge and no capacity alone would be enough",
        ),
    ] {
        folder.write("journal", sealed(start));
        for command in ON_JOURNAL {
            let ran = folder.run(&on(command, "journal"));
            let told = format!("gomzhiva: {refused}; journal starts such a shift, and stays as it is\n");
            assert_eq!((ran.status, ran.err), (Some(1), told));
        }
    }
}

#[test]
fn what_is_no_journal_is_refused() {
    let folder = Folder::new();
    for foreign in [
        &b""[..],
        b"\n",
        DAY.as_bytes(),
        &common::day_words(),
        b"\xff\xfe",
        &[0; 5000],
    ] {
        folder.write("journal", foreign);
        assert_damaged(&folder, 1);
    }
    let long = [
        folder_of_a_shift().read("journal"),
        vec![0; 1 << 20],
        b"record 1 1".to_vec(),
    ]
    .concat();
    folder.write("journal", long);
    assert_damaged(&folder, 4);
    let zero = folder.run(&["shift", "show", "--journal", "/dev/zero"]);
    assert_eq!(zero.status, Some(2), "an endless file is no journal: {}", zero.err);
    fs::create_dir(folder.file("directory")).expect("a directory");
    for (name, status, reason) in [
        ("none", 3, "No such file or directory"),
        (
            "directory",
            2,
            "a regular file is expected as a journal, found a directory",
        ),
    ] {
        for command in [&["show"][..], &["plan"], &["chart"], &["record", "1", "1"]] {
            let ran = folder.run(&[&["shift"], command, &["--journal", name]].concat());
            assert_eq!(
                told(ran),
                (Some(status), String::new(), format!("gomzhiva: {name}: {reason}\n"))
            );
        }
    }
    assert_eq!(folder.names(), ["directory", "journal"]);
}

/// What a start is told of a journal that is there.
const THERE: &str = "gomzhiva: journal: File exists; nothing is started, since a shift needs a new journal\n";

#[test]
fn a_journal_that_is_there_is_not_started_again() {
    let folder = folder_of_a_shift();
    let before = folder.read("journal");
    let again = start(&folder, DAY);
    assert_eq!(told(again), (Some(3), String::new(), THERE.to_string()));
    let missing = folder.run_with(&["shift", "start", "-", "--journal", "none/journal"], DAY.as_bytes());
    assert_eq!(missing.err, "gomzhiva: none/journal: No such file or directory\n");
    assert_eq!(
        (folder.read("journal"), folder.names()),
        (before, vec!["journal".to_string()])
    );
}

#[test]
fn a_journal_that_may_only_be_read_is_shown() {
    let folder = folder_of_a_shift();
    folder.permit(".", 0o777);
    folder.permit("journal", 0o444);
    let before = folder.read("journal");
    assert_eq!(told(folder.run_unprivileged(&SHOW)), done(SHOWN));
    assert_eq!(folder.run_unprivileged(&PLAN).status, Some(0));
    let record = folder.run_unprivileged(&["shift", "record", "1", "1", "--journal", "journal"]);
    assert_eq!(
        told(record),
        (
            Some(3),
            String::new(),
            "gomzhiva: journal: Permission denied\n".to_string()
        )
    );
    assert_eq!(folder.read("journal"), before);
}

#[test]
fn a_recording_that_cannot_be_written_leaves_the_journal_as_it_was() {
    let folder = folder_of_a_shift();
    let before = folder.read("journal");
    let faults = folder.faults();
    let faulty = |arguments: &[&str], limit: &str, count: &str| {
        let mut command = folder.command(arguments);
        command
            .env("LD_PRELOAD", &faults)
            .env("PIECE", "4")
            .env(limit, count)
            .env("ERRNO", "28");
        told(command.stdin(Stdio::null()).output().expect("the program ends").into())
    };
    for (limit, count) in [("WRITES", "0"), ("WRITES", "2"), ("WRITES", "5"), ("SYNCS", "0")] {
        let recorded = faulty(&["shift", "record", "1", "3", "--journal", "journal"], limit, count);
        let reason = "gomzhiva: journal: No space left on device\n".to_string();
        assert_eq!(recorded, (Some(3), String::new(), reason));
        assert_eq!(folder.read("journal"), before, "{limit} {count}");
    }
    folder.write("day.txt", DAY);
    for (limit, count) in [("WRITES", "0"), ("WRITES", "5"), ("SYNCS", "0"), ("SYNCS", "1")] {
        let started = faulty(&["shift", "start", "day.txt", "--journal", "new"], limit, count);
        assert_eq!(started.2, "gomzhiva: new: No space left on device\n");
        assert_eq!(folder.names(), ["day.txt", "faults.so", "journal"]);
    }
}

#[test]
fn a_recording_that_cannot_be_cut_back_says_so() {
    let folder = folder_of_a_shift();
    let mut command = folder.command(&["shift", "record", "1", "3", "--journal", "journal"]);
    command
        .env("LD_PRELOAD", folder.faults())
        .env("SYNCS", "0")
        .env("CUTS", "1");
    let ran = Ran::from(command.stdin(Stdio::null()).output().expect("the program ends"));
    let reason = "journal: Input/output error; the frame may be recorded all the same: `shift show` tells";
    assert_eq!(told(ran), (Some(3), String::new(), format!("gomzhiva: {reason}\n")));
    assert_eq!(folder.run(&SHOW).status, Some(0));
}

#[test]
fn a_file_system_without_links_has_journals_too() {
    let folder = Folder::of_the_day();
    let faults = folder.faults();
    let start = || {
        let mut command = folder.command(&["shift", "start", "day.txt", "--journal", "journal"]);
        command.env("LD_PRELOAD", &faults).env("LINKS", "0").env("ERRNO", "1");
        Ran::from(command.stdin(Stdio::null()).output().expect("the program ends"))
    };
    assert_eq!(start().status, Some(0));
    assert_eq!(start().err, THERE);
    assert_eq!(folder.names(), ["day.txt", "faults.so", "journal"]);
    assert_eq!(record(&folder, 1, 3).status, Some(0));
}

#[test]
fn a_journal_that_was_moved_while_it_was_waited_for_is_not_written() {
    let folder = folder_of_a_shift();
    let moved = folder.read("journal");
    let old = File::open(folder.file("journal")).expect("the journal");
    flock(&old, FlockOperation::LockExclusive).expect("a lock");
    let mut command = folder.command(&["shift", "record", "0", "0", "--journal", "journal"]);
    let waiting = command
        .stdin(Stdio::null())
        .stdout(Stdio::piped())
        .spawn()
        .expect("the program starts");
    thread::sleep(Duration::from_millis(100));
    fs::rename(folder.file("journal"), folder.file("yesterday")).expect("a renaming");
    assert_eq!(start(&folder, DAY).status, Some(0));
    flock(&old, FlockOperation::Unlock).expect("no lock");
    let answer = Ran::from(waiting.wait_with_output().expect("the program ends"));
    assert!(answer.text().starts_with("Recorded frame 1. "), "{answer:?}");
    assert_eq!((folder.read("yesterday"), calls(&folder).len()), (moved, 2));
}

/// A stream that takes no more until its other end is read.
fn full_stream() -> (OwnedFd, UnixStream) {
    let (mut output, reader) = UnixStream::pair().expect("two ends");
    output.set_nonblocking(true).expect("a stream");
    while output.write(&[0; 4096]).is_ok() {}
    output.set_nonblocking(false).expect("a stream");
    (output.into(), reader)
}

#[test]
fn nobody_waits_for_an_answer_that_is_not_read() {
    let folder = folder_of_a_shift();
    let whole = folder.read("journal");
    folder.write("journal", [&whole[..], b"rec"].concat());
    let ((output, reader), (notices, notices_reader)) = (full_stream(), full_stream());
    let mut command = folder.command(&["shift", "record", "0", "0", "--journal", "journal"]);
    let mut unread = command
        .stdin(Stdio::null())
        .stdout(output)
        .stderr(notices)
        .spawn()
        .expect("the program starts");
    let lines = || folder.read("journal").iter().filter(|&&byte| byte == b'\n').count();
    while lines() < 4 {
        thread::sleep(Duration::from_millis(5));
    }
    let mut command = folder.command(&SHOW);
    let mut look = command.stdout(Stdio::null()).spawn().expect("the program starts");
    let ended = (0..2000).find_map(|_| {
        thread::sleep(Duration::from_millis(5));
        look.try_wait().expect("a child")
    });
    assert_eq!(unread.try_wait().expect("a child"), None, "its answer is not read yet");
    assert_eq!(ended.and_then(|status| status.code()), Some(0), "the journal is free");
    drop((reader, notices_reader));
    unread.wait().expect("the program ends");
}

#[test]
fn a_locked_journal_is_waited_for() {
    let folder = folder_of_a_shift();
    let journal = File::open(folder.file("journal")).expect("the journal");
    flock(&journal, FlockOperation::LockExclusive).expect("a lock");
    for arguments in [&SHOW[..], &["shift", "record", "0", "0", "--journal", "journal"]] {
        let mut command = folder.command(arguments);
        let mut waiting = command
            .stdin(Stdio::null())
            .stdout(Stdio::piped())
            .spawn()
            .expect("the program starts");
        thread::sleep(Duration::from_millis(200));
        assert_eq!(waiting.try_wait().expect("a child"), None, "{arguments:?} waits");
        flock(&journal, FlockOperation::Unlock).expect("no lock");
        assert_eq!(waiting.wait().expect("a child").code(), Some(0));
        flock(&journal, FlockOperation::LockExclusive).expect("a lock");
    }
}

#[test]
fn two_writers_at_once_record_each_frame_once() {
    const EACH: u32 = 40;
    let folder = Folder::new();
    let request = request_text(1000, 0, 0, &vec![5; 2 * EACH as usize]);
    assert_eq!(start(&folder, &request).status, Some(0));
    let writer = |first: u32| -> Vec<String> {
        let answered = (0..EACH).map(|i| (first + i, record(&folder, first + i, 0)));
        let frame = |(figure, ran): (u32, Ran)| {
            let text = ran.text();
            let frame = text
                .strip_prefix("Recorded frame ")
                .and_then(|rest| rest.split('.').next());
            format!("{}:{figure}", frame.expect("an answer"))
        };
        answered.map(frame).collect()
    };
    let (one, other) = thread::scope(|scope| {
        let other = scope.spawn(|| writer(1000));
        (writer(0), other.join().expect("a writer"))
    });
    let mut answered = [one, other].concat();
    let shown = folder.run(&SHOW).text();
    let row = |row: &str| row.split(',').take(2).collect::<Vec<_>>().join(":");
    let mut rows: Vec<String> = shown.lines().skip(1).map(row).collect();
    answered.sort();
    rows.sort();
    assert_eq!(answered, rows, "each answer's frame with its figure");
}

#[test]
fn of_several_starts_at_once_one_is_the_journals() {
    let folder = Folder::new();
    let started: Vec<(u32, Ran)> = thread::scope(|scope| {
        let begin = |end: u32| (end, start(&folder, &request_text(9, 9, end, &[1])));
        let starts: Vec<_> = (0..8).map(|end| scope.spawn(move || begin(end))).collect();
        starts.into_iter().map(|start| start.join().expect("a start")).collect()
    });
    let won: Vec<u32> = started
        .iter()
        .filter(|(_, ran)| ran.status == Some(0))
        .map(|(end, _)| *end)
        .collect();
    assert_eq!(won.len(), 1, "{started:?}");
    assert!(started.iter().all(|(_, ran)| ran.status == Some(0) || ran.err == THERE));
    assert_eq!(
        calls(&folder),
        [format!("start capacity 9 start 9 end {} harvest 1", won[0])]
    );
    assert_eq!(folder.names(), ["journal"]);
}
