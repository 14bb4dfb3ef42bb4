//! Clock times that were read, carried through tables, sentences, journals and pictures.

mod common;

use common::clock::{Date, Form, Minute};
use common::Folder;

const HEAD: &str = "capacity 5\nstart 2\nend 2\n";

const MORNING: &str = "capacity 5\nstart 2\nend 2\ntime harvest least most\n06:00 6 - 3\n06:15 4 - -\n06:30 0 - -\n\
                       06:45 0 3 -\n07:00 5 - -\n07:15 5 - 4\n";

/// The same without its times.
fn without_times(request: &str) -> String {
    let line = |line: &str| match line.split_once(' ') {
        Some((time, rest)) if time == "time" || time.contains(':') => format!("{rest}\n"),
        _ => format!("{line}\n"),
    };
    request.lines().map(line).collect()
}

#[test]
fn tables_have_the_times_of_their_frames() {
    let table = "\
frame   time  harvest  least  most  budget  charge  loss
    1  06:00        6      -     3       3       5     0
    2  06:15        4      -     -       4       5     0
    3  06:30        0      -     -       2       3     0
    4  06:45        0      3     -       3       0     0
    5  07:00        5      -     -       4       1     0
    6  07:15        5      -     4       4       2     0

";
    let folder = Folder::new();
    let plan = folder.out_with("plan -", MORNING);
    assert!(plan.starts_with(table), "{plan}");
    // Apart from the column everything is as it is without times.
    let bare = without_times(MORNING);
    let words = |table: &str| table.split_once("\n\n").expect("words").1.to_string();
    assert_eq!(words(&plan), words(&folder.out_with("plan -", &bare)));
    for command in ["needed -", "plan --listing -", "words -"] {
        let [timed, untimed] = [MORNING, &bare].map(|request| folder.line_with(command, request));
        assert_eq!(timed, untimed, "{command}");
    }
}

#[test]
fn a_word_file_has_no_times() {
    let folder = Folder::new();
    folder.write("words", folder.line_with("words -", MORNING).out);
    assert_eq!(folder.out("text words"), without_times(MORNING));
    assert!(!folder.out("plan --csv words").contains("time"));
}

#[test]
fn budgets_may_have_their_times_too() {
    let budgets = |times: [&str; 2]| format!("time,budget\n{},3\n{},3\n", times[0], times[1]);
    let request = |times: [&str; 2]| format!("{HEAD}time,harvest\n{},3\n{},3\n", times[0], times[1]);
    let bare = format!("{HEAD}harvest\n3\n3\n");
    let traced = |request: &str, budgets: &str| {
        let folder = Folder::new();
        folder.write("budgets", budgets);
        folder.line_with("trace --csv - budgets", request)
    };
    let quarters = ["06:00", "06:15"];
    // The times of either are carried on, those of the request before those of the budgets.
    for (request, budgets, first) in [
        (request(quarters), "3 3".to_string(), "06:00"),
        (bare.clone(), budgets(quarters), "06:00"),
        (request(quarters), budgets(quarters), "06:00"),
        (
            request(quarters),
            budgets(["2026-06-21 06:00", "2026-06-21 06:15"]),
            "06:00",
        ),
        (
            request(["2026-06-21 06:00", "2026-06-21 06:15"]),
            budgets(quarters),
            "2026-06-21 06:00",
        ),
        (
            request(["2026-06-21 06:00", "2026-06-21 06:15"]),
            budgets(["2026-06-20 06:00", "2026-06-20 06:15"]),
            "2026-06-21 06:00",
        ),
        (
            request(["2026-06-21 06:00+02:00", "2026-06-21 06:15+02:00"]),
            budgets(["2026-06-21 04:00Z", "2026-06-21 04:15Z"]),
            "2026-06-21 06:00+02:00",
        ),
        (
            request(["2026-06-21 06:00+02:00", "2026-06-21 06:15+02:00"]),
            budgets(["2026-12-21 06:00+01:00", "2026-12-21 06:15+01:00"]),
            "2026-06-21 06:00+02:00",
        ),
    ] {
        let ran = traced(&request, &budgets);
        assert_eq!((ran.status, ran.err.as_str()), (Some(0), ""), "{request}{budgets}");
        let table = format!("frame,time,harvest,budget,charge,loss\n1,{first},3,3,2,0\n");
        assert!(ran.text().starts_with(&table), "{}", ran.text());
    }
    // A date that may be taken for another leaves the offset, by which moments are compared.
    let local = request(["6/7/2026 06:00+02:00", "6/7/2026 06:15+02:00"]);
    for (found, status) in [("6/7/2026 04:00Z", 0), ("2026-06-07 04:00Z", 0), ("6/7/2026 06:00Z", 2)] {
        let next = found.replace(":00Z", ":15Z");
        assert_eq!(traced(&local, &budgets([found, &next])).status, Some(status), "{found}");
    }
    for (asked, found) in [
        (quarters, ["07:00", "07:15"]),
        (quarters, ["06:15", "06:30"]),
        (quarters, ["2026-06-21 18:00", "2026-06-21 18:15"]),
        (
            ["2026-06-21 06:00", "2026-06-21 06:15"],
            ["2026-06-22 06:15", "2026-06-22 06:30"],
        ),
        (["06:00+02:00", "06:15+02:00"], ["06:00+01:00", "06:15+01:00"]),
        (quarters, ["12:00+02:00", "12:15+02:00"]),
    ] {
        let ran = traced(&request(asked), &budgets(found));
        assert_eq!((ran.status, ran.text().as_str()), (Some(2), ""));
        let told = format!(
            "budgets:2:1: {}, when the request begins, is expected, found '{}'\n",
            asked[0], found[0]
        );
        assert_eq!(ran.err, told);
    }
    // Without times everything is as it was.
    assert!(traced(&bare, "3 3")
        .text()
        .starts_with("frame,harvest,budget,charge,loss\n"));
}

/// Sentences that name a frame, each from a command on the file `request`, `bounded` or `dark` or the journal, with and
/// without its times.
#[test]
fn sentences_that_name_a_frame_say_its_time() {
    let over = energy::MAX_HARVEST + 1;
    for (request, command, input, with, without) in [
        (
            MORNING.to_string(),
            "trace request -",
            "3 4 2 9 4 4",
            "Not feasible: the charge after frame 4, 06:45, is below zero.",
            "Not feasible: the charge after frame 4 is below zero.",
        ),
        (
            MORNING.to_string(),
            "trace request -",
            "4 3 2 3 4 4",
            "Not within the bounds in frame 1, 06:00: its budget of 4 Wh is above its most of 3 Wh.",
            "Not within the bounds in frame 1: its budget of 4 Wh is above its most of 3 Wh.",
        ),
        (
            MORNING.to_string(),
            "trace --csv request -",
            "4 3 3 2 4 4",
            "gomzhiva: Not within the bounds in 2 frames, first in frame 1, 06:00: its budget",
            "gomzhiva: Not within the bounds in 2 frames, first in frame 1: its budget",
        ),
        (
            MORNING.replace(":15 4", &format!(":15 {over}")),
            "plan request",
            "",
            "refused 6 2: the harvest of frame 2, 06:15, is ",
            "refused 6 2: the harvest of frame 2 is ",
        ),
        (
            MORNING.replace("0 3 -", "0 3 1"),
            "needed request",
            "",
            "refused 10 4: the least of frame 4, 06:45, is 3 Wh, above its most of 1 Wh",
            "refused 10 4: the least of frame 4 is 3 Wh, above its most of 1 Wh",
        ),
        (
            MORNING.replace("4 - -", "4 - 536870912"),
            "words request",
            "",
            "refused 10 2: the most of frame 2, 06:15, is 536870912 Wh",
            "refused 10 2: the most of frame 2 is 536870912 Wh",
        ),
        (
            MORNING.replace("0 3 -", "0 9 -"),
            "plan request",
            "",
            "as budgets they run the store dry in frame 4, 06:45, with 4 Wh missing there",
            "as budgets they run the store dry in frame 4, with 4 Wh missing there",
        ),
        (
            MORNING.replace("0 3 -", "0 9 -"),
            "plan --without-leasts request",
            "",
            "Not within the bounds in frame 4, 06:45: its budget",
            "Not within the bounds in frame 4: its budget",
        ),
    ] {
        let said = |request: &str| {
            let folder = Folder::new();
            folder.write("request", request);
            let ran = folder.line_with(command, input);
            ran.text() + &ran.err
        };
        let (timed, bare) = (said(&request), said(&without_times(&request)));
        assert!(timed.contains(with), "{command}: {timed}");
        assert!(bare.contains(without), "{command}: {bare}");
    }
}

/// A folder with a journal that begins with this request.
fn shift_of(request: &str) -> Folder {
    let folder = Folder::new();
    folder.out_with("shift start - --journal journal", request);
    folder
}

fn journal(folder: &Folder) -> String {
    String::from_utf8(folder.read("journal")).expect("a journal is text")
}

#[test]
fn a_shift_tells_the_times_of_its_frames() {
    for (request, commas) in [(MORNING.to_string(), true), (without_times(MORNING), false)] {
        let name = |frame: &str, time: &str| {
            let time = if commas { format!(", {time}") } else { String::new() };
            format!("{frame}{time}")
        };
        let folder = Folder::new();
        let started = folder.out_with("shift start - --journal journal", &request);
        let next = format!("\nNext: a budget of 3 Wh for frame {}.\n", name("1", "06:00"));
        assert!(started.ends_with(&next), "{started}");
        let recorded = folder.line("shift record 6 4 --frame 1 --journal journal");
        let begin = format!("Recorded frame {}. 1 of 6 frames recorded; ", name("1", "06:00"));
        assert!(recorded.text().starts_with(&begin), "{}", recorded.text());
        let next = format!(" for frame {}.\n", name("2", "06:15"));
        assert!(recorded.text().ends_with(&next), "{}", recorded.text());
        let doubt = format!(
            "gomzhiva: the use of 4 Wh is above the most of 3 Wh of frame {}; it is recorded all the same\n",
            name("1", "06:00")
        );
        assert_eq!(recorded.err, doubt);
        let missed = folder.line("shift record 6 3 --frame 4 --journal journal");
        let told = format!(
            "gomzhiva: --frame 4: the next frame is {}; nothing is recorded\n",
            name("2", "06:15")
        );
        assert_eq!((missed.status, missed.text().as_str(), missed.err), (Some(2), "", told));
    }
}

#[test]
fn a_short_rest_tells_when_its_leasts_fail() {
    let folder = shift_of(MORNING);
    for harvest in [0, 0] {
        folder.out(&format!("shift record {harvest} 0 --journal journal"));
    }
    let plan = folder.out("shift plan --journal journal");
    assert!(
        plan.contains("run the store dry in frame 4, 06:45, with 1 Wh missing there"),
        "{plan}"
    );
    let planned = folder.out("shift plan --without-leasts --journal journal");
    assert!(
        planned.contains("Not within the bounds in frame 4, 06:45: its budget of 1 Wh is below"),
        "{planned}"
    );
}

#[test]
fn a_journal_keeps_the_first_time() {
    for (first, second, word) in [
        ("06:00", "06:15", "06:00"),
        ("6:00 pm", "6:15 pm", "18:00"),
        ("23:45", "24:00", "23:45"),
        ("06:07:30", "06:22:30", "06:07:30"),
        ("21.06.2026 06:00", "21.06.2026 06:15", "2026-06-21T06:00"),
        ("2026-06-21 24:00", "2026-06-22 00:15", "2026-06-22T00:00"),
        ("2026-06-21T06:00Z", "2026-06-21T06:15Z", "2026-06-21T06:00Z"),
        (
            "2026-03-29 01:45+01:00",
            "2026-03-29 03:00+02:00",
            "2026-03-29T01:45+01:00 frame 2 time 2026-03-29T03:00+02:00",
        ),
        (
            "2026-06-21 06:00-03:30",
            "2026-06-21 06:15-03:30",
            "2026-06-21T06:00-03:30",
        ),
        ("6/7/2026 06:00", "6/7/2026 06:15", "06:00"),
    ] {
        let folder = shift_of(&format!("{HEAD}time,harvest\n{first},6\n{second},4\n"));
        let line = format!("start capacity 5 start 2 end 2 time {word} harvest 6 4 *");
        assert!(journal(&folder).starts_with(&line), "{}", journal(&folder));
        folder.out("shift record 1 3 --journal journal");
        let shown = folder.out("shift show --csv --journal journal");
        let time = word.split(' ').next().unwrap_or_default().replace('T', " ");
        assert_eq!(shown, format!("frame,time,harvest,use,charge,loss\n1,{time},1,3,0,0\n"));
        let picture = folder.out("shift chart --journal journal");
        assert!(
            picture.contains("\nrecorded up to frame 1, planned from frame 2, "),
            "{picture}"
        );
    }
    // Without times the line is what it was.
    let folder = shift_of(&format!("{HEAD}frame,time,harvest\n1,noon,6\n2,noon,4\n"));
    assert!(journal(&folder).starts_with("start capacity 5 start 2 end 2 harvest 6 4 *"));
}

/// A line with its checksum.
fn sealed(before: &str, call: &str) -> String {
    let sum = crc32fast::hash(format!("{before}{call}").as_bytes());
    format!("{before}{call} *{sum:08x}\n")
}

#[test]
fn a_journal_without_times_goes_on_as_before() {
    let folder = Folder::new();
    let start = sealed("", "start capacity 5 start 2 end 2 harvest 6 4 0 0 5 5");
    assert_eq!(start, "start capacity 5 start 2 end 2 harvest 6 4 0 0 5 5 *e637905d\n");
    folder.write("journal", &start);
    let recorded = folder.out("shift record 1 3 --frame 1 --journal journal");
    assert!(
        recorded.starts_with("Recorded frame 1. 1 of 6 frames recorded; "),
        "{recorded}"
    );
    assert_eq!(journal(&folder), sealed(&start, "record 1 3"));
    let shown = folder.out("shift show --csv --journal journal");
    assert_eq!(shown, "frame,harvest,use,charge,loss\n1,1,3,0,0\n");
    let plan = folder.out("shift plan --csv --journal journal");
    assert!(plan.starts_with("frame,harvest,budget,charge,loss\n2,4,"), "{plan}");
    let picture = folder.out("shift chart --journal journal");
    assert!(picture.contains("\nrecorded up to frame 1, planned from frame 2\n"));
    assert_eq!(clocks(&picture), [""; 0]);
}

#[test]
fn a_damaged_time_is_damage() {
    let folder = shift_of(MORNING);
    let whole = journal(&folder);
    let refused = |bytes: &str| {
        folder.write("journal", bytes);
        for command in ["show", "plan", "chart", "record 1 1"] {
            let ran = folder.line(&format!("shift {command} --journal journal"));
            assert_eq!((ran.status, ran.text().as_str()), (Some(2), ""), "{command} of {bytes}");
            let told = "journal:1:1: the start of a shift, as a journal begins, is expected, found 'start capacity 5";
            assert!(ran.err.starts_with(told), "{}", ran.err);
            assert_eq!(journal(&folder), bytes, "nothing is changed");
        }
    };
    refused(&whole.replace("time 06:00", "time 06:15"));
    refused(&whole.replace("time 06:00 ", ""));
    // With a checksum that is right the time is still none that was written.
    for time in [
        "6:00",
        "noon",
        "24:00",
        "06:00:00",
        "06:00+00:00",
        "21.06.2026T06:00",
        "2026-06-31T06:00",
        "2026-06-21 06:00",
        "06:00 06:15",
        "06:00-06:15-06:15",
        "6:00PM",
        "",
    ] {
        refused(&sealed(
            "",
            &format!("start capacity 5 start 2 end 2 time {time} harvest 6 4"),
        ));
    }
    refused(&sealed("", "start capacity 5 start 2 end 2 harvest 6 4 time 06:00"));
    refused(&sealed("", "start capacity 5 time 06:00 start 2 end 2 harvest 6 4"));
    refused(&sealed(
        "",
        "start capacity 5 start 2 end 2 time 06:00 time 06:00 harvest 6 4",
    ));
}

/// The texts of a picture.
fn texts(picture: &str) -> Vec<&str> {
    picture.lines().filter(|line| !line.starts_with('<')).collect()
}

/// The texts of a picture that are clock times alone.
fn clocks(picture: &str) -> Vec<&str> {
    let is_clock = |text: &&str| text.len() == 5 && text.as_bytes()[2] == b':';
    texts(picture).into_iter().filter(is_clock).collect()
}

/// The places across the page at which a text stands.
fn places(picture: &str, text: &str) -> Vec<i32> {
    let place = |before: &str| {
        let tag = &before[before.rfind('<')?..];
        tag.split(" x=\"").nth(1)?.split('"').next()?.parse().ok()
    };
    let text = format!("\n{text}\n");
    let stands = picture.match_indices(&text).map(|(at, _)| place(&picture[..at]));
    stands.map(|place| place.expect("a whole number")).collect()
}

/// The picture of a plan of so many frames from a time on.
fn picture_from(time: &str, frames: i64) -> String {
    let (date, clock) = time.rsplit_once(' ').unwrap_or(("", time));
    let (hour, minute) = clock.split_once(':').expect("a clock time");
    let first =
        Minute(9_668 * 1440 + hour.parse::<i64>().expect("an hour") * 60 + minute.parse::<i64>().expect("a minute"));
    let form = Form {
        date: if date.is_empty() { Date::None } else { Date::Dashed },
        ..Form::PLAIN
    };
    let row = |i: i64| format!("{},5\n", form.write(first.later(15 * i)));
    let table = format!("{HEAD}time,harvest\n{}", (0..frames).map(row).collect::<String>());
    assert!(table.starts_with(&format!("{HEAD}time,harvest\n{time},")), "{table}");
    Folder::new().line_with("plan --chart - -", &table).text()
}

#[test]
fn a_day_has_hours() {
    let day = picture_from("00:00", 96);
    let hours: Vec<String> = (0..=12).map(|i| format!("{:02}:00", 2 * i % 24)).collect();
    assert_eq!(clocks(&day), [&hours[..], &hours].concat(), "on both axes");
    assert!(texts(&day).contains(&"clock time") && !texts(&day).contains(&"frame (quarter hours)"));
    let dated = picture_from("2026-06-21 06:00", 4);
    assert_eq!(clocks(&dated)[..5], ["06:00", "06:15", "06:30", "06:45", "07:00"]);
    assert!(texts(&dated).contains(&"clock time, from 2026-06-21 on"));
    // Marks stand at whole hours, also where no frame begins there.
    assert_eq!(clocks(&picture_from("05:10", 96))[..2], ["06:00", "08:00"]);
    let two_days = picture_from("2026-06-21 00:00", 192);
    assert_eq!(clocks(&two_days)[..4], ["00:00", "04:00", "08:00", "12:00"]);
}

#[test]
fn a_week_has_days() {
    let dated = picture_from("2026-06-21 06:00", 672);
    let undated = picture_from("06:00", 672);
    assert!(texts(&dated).contains(&"dates") && texts(&undated).contains(&"days"));
    let starts = |picture: &str, name: &dyn Fn(i32) -> String| -> Vec<i32> {
        (2..=7).map(|day| places(picture, &name(day))[0]).collect()
    };
    let midnights = starts(&dated, &|day| format!("2026-06-{}", 20 + day));
    assert_eq!(starts(&undated, &|day| format!("day {day}")), midnights);
    let apart: Vec<i32> = midnights.windows(2).map(|pair| pair[1] - pair[0]).collect();
    assert!(apart.iter().all(|days| (days - apart[0]).abs() <= 1), "{apart:?}");
    for picture in [dated, undated, picture_from("2026-06-21 06:00", 193)] {
        assert_eq!(clocks(&picture), [""; 0]);
    }
}

#[test]
fn every_picture_has_times_if_its_request_has_them() {
    let folder = Folder::new();
    for (name, request) in [("timed", MORNING.to_string()), ("bare", without_times(MORNING))] {
        folder.write(name, &request);
        folder.out(&format!("shift start {name} --journal {name}.journal"));
        folder.out(&format!("shift record 1 3 --journal {name}.journal"));
        for command in [
            format!("plan --chart - {name}"),
            format!("trace --chart - {name} -"),
            format!("shift plan --chart - --journal {name}.journal"),
            format!("shift chart --journal {name}.journal"),
        ] {
            let picture = folder.out_with(&command, "1 1 1 3 1 1");
            let quarters = ["06:00", "06:15", "06:30", "06:45", "07:00", "07:15", "07:30"];
            let axes = [quarters, quarters].concat();
            let is_timed = name == "timed";
            assert_eq!(clocks(&picture), if is_timed { axes } else { Vec::new() }, "{command}");
            assert_eq!(texts(&picture).contains(&"clock time"), is_timed, "{command}");
            assert_eq!(
                texts(&picture).contains(&"frame (quarter hours)"),
                !is_timed,
                "{command}"
            );
        }
    }
    // What was recorded ends where the next frame begins.
    let picture = folder.out("shift chart --journal timed.journal");
    assert!(texts(&picture).contains(&"recorded up to frame 1, planned from frame 2, 06:15"));
    let (now, next) = (places(&picture, "now")[0], places(&picture, "06:15")[0]);
    assert!((now - next).abs() < 20, "{now} {next}");
}
