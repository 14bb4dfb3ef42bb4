//! Tables that are the day they show: the columns `frame` and `time`, in every form.

mod common;

use common::clock::{forms, minutes, Date, Form, Minute};
use common::{check, Folder, Ran, BUDGET_READERS, REQUEST_READERS};
use proptest::collection::vec;
use proptest::prelude::*;
use proptest::sample::{select, Index};

const FIGURES: &str = "--capacity 5 --start 2 --end 2";
const HEAD: &str = "capacity 5\nstart 2\nend 2\n";

/// A table: the names of its columns, the cells of its lines, and what parts them.
#[derive(Clone, Debug)]
struct Table {
    names: Vec<&'static str>,
    rows: Vec<Vec<String>>,
    separator: char,
}

impl Table {
    /// A cell, in double quotes where it would be parted.
    fn cell(&self, text: &str) -> String {
        if text.contains(self.separator) {
            format!("\"{text}\"")
        } else {
            text.to_string()
        }
    }

    fn line<S: AsRef<str>>(&self, cells: &[S]) -> String {
        let cells: Vec<String> = cells.iter().map(|cell| self.cell(cell.as_ref())).collect();
        cells.join(&self.separator.to_string()) + "\n"
    }

    fn text(&self) -> String {
        let rows = self.rows.iter().map(|row| self.line(row));
        self.line(&self.names) + &rows.collect::<String>()
    }

    /// Where the cell of a row and column stands: `3:7`.
    fn place(&self, row: usize, name: &str) -> String {
        let column = self.names.iter().position(|known| *known == name).expect("the column");
        let before = self.rows[row][..column]
            .iter()
            .map(|cell| self.cell(cell).chars().count() + 1);
        format!("{}:{}", row + 2, 1 + before.sum::<usize>())
    }
}

/// Runs a command with the figures on a text.
fn run(command: &str, text: &str) -> Ran {
    Folder::new().line_with(&format!("{command} {FIGURES}"), text)
}

/// What `text` makes of a table with the figures.
fn text_of(table: &str) -> (Option<i32>, String, String) {
    let ran = run("text -", table);
    (ran.status, ran.text(), ran.err)
}

fn assert_fault(table: &str, message: &str) {
    let told = format!("standard input:{message}\n");
    assert_eq!(text_of(table), (Some(2), String::new(), told), "{table}");
}

/// The request as text: a line for each time with its harvest.
fn timed_text<S: AsRef<str>>(times: &[S], harvest: &[u32]) -> String {
    let line = |(time, harvest): (&S, &u32)| format!("{} {harvest}\n", time.as_ref());
    let lines = times.iter().zip(harvest).map(line);
    format!("{HEAD}time harvest\n{}", lines.collect::<String>())
}

fn assert_times(table: &str, times: &[&str]) {
    let harvest = vec![6; times.len()];
    assert_eq!(text_of(table), (Some(0), timed_text(times, &harvest), String::new()));
}

/// A table of times, each with the same harvest.
fn times_table(times: &[&str]) -> String {
    let rows = times.iter().map(|time| format!("{time};6\n"));
    format!("time;harvest\n{}", rows.collect::<String>())
}

/// The four tables that are not the day they show, and a fifth: from 6 frames, each with its number and time.
const NAMED: [&str; 5] = [
    "a line of totals",
    "missing lines",
    "reversed lines",
    "hourly lines",
    "a line twice",
];

/// The lines of a named table as frame numbers, minutes of the day and harvests, and the first that does not follow.
fn named_lines(named: &str) -> (Vec<(u32, i64, u32)>, usize) {
    let day: Vec<(u32, i64, u32)> = (1..=6).map(|i| (i, 345 + 15 * i64::from(i), 5)).collect();
    match named {
        "missing lines" => ([&day[..2], &day[4..]].concat(), 2),
        "reversed lines" => (day.into_iter().rev().collect(), 1),
        "hourly lines" => ((0..6).map(|i| (4 * i + 1, 360 + 60 * i64::from(i), 5)).collect(), 1),
        "a line twice" => ([&day[..4], &day[3..]].concat(), 4),
        _ => (day, 6),
    }
}

/// A named table with these columns before its harvests and budgets, and the row that is at fault.
fn named_table(named: &str, columns: &[&'static str], separator: char) -> (Table, usize) {
    let (lines, fault) = named_lines(named);
    let row = |(number, minute, harvest): (u32, i64, u32)| {
        let cell = |name: &&str| match *name {
            "frame" => number.to_string(),
            _ => Minute(minute).hours(),
        };
        let cells = columns.iter().map(cell);
        cells.chain([harvest.to_string(), "5".to_string()]).collect()
    };
    let mut rows: Vec<Vec<String>> = lines.into_iter().map(row).collect();
    if named == "a line of totals" {
        let total = |_: &&str| "Total".to_string();
        rows.push(columns.iter().map(total).chain(["30".into(), "30".into()]).collect());
    }
    let names = columns.iter().copied().chain(["harvest", "budget"]).collect();
    let table = Table { names, rows, separator };
    (table, fault)
}

/// Runs every reader of requests and budgets on a table as the file `table`, each in a folder of its own.
fn each_reader(table: &str, look: impl Fn(&str, &Folder, Ran)) {
    for reader in REQUEST_READERS.iter().chain(&BUDGET_READERS) {
        // What is graded needs no figures.
        let figures = if reader.starts_with("grade") { "" } else { FIGURES };
        let folder = Folder::new();
        folder.write("table", table);
        folder.write("day.txt", "harvest\n5\n5\n5\n5\n5\n5\n");
        folder.write("budgets", "5 5 5 5 5 5");
        let line = format!("{} {figures}", reader.replace("FILE", "table"));
        look(reader, &folder, folder.line(&line));
    }
}

/// Every reader refuses a table with this place, and writes nothing.
fn assert_refused_by_all(table: &str, place: &str) {
    each_reader(table, |reader, folder, ran| {
        assert_eq!((ran.status, ran.text().as_str()), (Some(2), ""), "{reader} of {table}");
        let is_placed = ran.err.starts_with(&format!("table:{place}: ")) && ran.err.contains(" is expected, found ");
        assert!(is_placed, "{reader} of {table}: {}", ran.err);
        assert_eq!(
            folder.names(),
            ["budgets", "day.txt", "table"],
            "{reader} writes nothing"
        );
    });
}

#[test]
fn a_table_that_is_not_the_day_it_shows_is_refused_by_every_command() {
    for named in NAMED {
        for columns in [&["frame"][..], &["time"], &["frame", "time"], &["time", "frame"]] {
            for separator in [',', ';', '\t', ' '] {
                let (table, fault) = named_table(named, columns, separator);
                assert_refused_by_all(&table.text(), &table.place(fault, columns[0]));
            }
        }
    }
}

#[test]
fn a_table_that_is_the_day_it_shows_is_read_by_every_command() {
    let (mut table, _) = named_table("a line of totals", &["frame", "time"], ',');
    table.rows.pop();
    each_reader(&table.text(), |reader, _, ran| {
        assert_eq!(ran.status, Some(0), "{reader}")
    });
}

#[test]
fn a_line_of_totals_is_refused_however_it_is_written() {
    let frames = "frame,time,harvest\n1,06:00,6\n2,06:15,4\n";
    for (total, place) in [
        (
            "Total,,10\n",
            "4:1: frame 3 or the end of the table is expected, found 'Total'",
        ),
        (
            ",,10\n",
            "4:1: frame 3 or the end of the table is expected, found nothing",
        ),
        (
            ",Total,10\n",
            "4:1: frame 3 or the end of the table is expected, found nothing",
        ),
        ("2,,10\n", "4:1: frame 3 or the end of the table is expected, found '2'"),
        (
            "\n\n-,-,10\n",
            "6:1: frame 3 or the end of the table is expected, found '-'",
        ),
        (
            "3,Total,10\n",
            "4:3: 06:30 (15 minutes after the frame before) or the end of the table is expected, found 'Total'",
        ),
        (
            "3,,10\n",
            "4:3: 06:30 (15 minutes after the frame before) or the end of the table is expected, found nothing",
        ),
    ] {
        assert_fault(&format!("{frames}{total}"), place);
    }
    // Its cells may be missing where those of the frames are last.
    assert_fault(
        "harvest\ttime\n6\t06:00\n4\t06:15\n10\n",
        "4:3: 06:30 (15 minutes after the frame before) or the end of the table is expected, found the end of the line",
    );
    assert_fault(
        "harvest,frame\n6,1\n4,2\n10\n",
        "4:3: frame 3 or the end of the table is expected, found the end of the line",
    );
    // Before the frames it is none of them either.
    assert_fault(
        "time,harvest\nTotal,10\n06:00,6\n06:15,4\n",
        "3:1: a clock time for each frame or for none is expected, found '06:00'",
    );
    assert_fault(
        "frame,harvest\nTotal,10\n1,6\n2,4\n",
        "2:1: a whole number up to 4294967295 is expected, found 'Total'",
    );
}

#[test]
fn frames_that_do_not_follow_are_named_with_what_is_expected() {
    let quarter = "(15 minutes after the frame before) or the end of the table is expected, found";
    for (times, message) in [
        (&["06:00", "07:00"][..], format!("3:1: 06:15 {quarter} '07:00'")),
        (&["06:15", "06:00"], format!("3:1: 06:30 {quarter} '06:00'")),
        (&["06:00", "06:15", "06:45"], format!("4:1: 06:30 {quarter} '06:45'")),
        (&["06:00", "06:00"], format!("3:1: 06:15 {quarter} '06:00'")),
        (&["06:00", "06:15:30"], format!("3:1: 06:15 {quarter} '06:15:30'")),
        (&["06:00", "06:15Z"], format!("3:1: 06:15 {quarter} '06:15Z'")),
        (&["06:00Z", "06:15"], format!("3:1: 06:15Z {quarter} '06:15'")),
        (
            &["06:00", "21.6.2026 06:15"],
            format!("3:1: 06:15 {quarter} '21.6.2026 06:15'"),
        ),
        (
            &["2026-06-21 06:00", "06:15"],
            format!("3:1: 2026-06-21 06:15 {quarter} '06:15'"),
        ),
        (
            &["2026-06-21 23:45", "2026-06-21 00:00"],
            format!("3:1: 2026-06-22 00:00 {quarter} '2026-06-21 00:00'"),
        ),
        (
            &["21.6.2026 06:00", "20.6.2026 06:15"],
            format!("3:1: 2026-06-21 06:15 {quarter} '20.6.2026 06:15'"),
        ),
        // The whole of a long time is told.
        (
            &["2026-06-21T06:00:00+02:00", "2026-06-21T06:30:00+02:00"],
            format!("3:1: 2026-06-21 06:15+02:00 {quarter} '2026-06-21T06:30:00+02:00'"),
        ),
        // Which of day and month is which is not known yet.
        (
            &["6/7/2026 06:00", "6/7/2026 06:30"],
            format!("3:1: 06:15 {quarter} '6/7/2026 06:30'"),
        ),
    ] {
        assert_fault(&times_table(times), &message);
    }
    let frame = "or the end of the table is expected, found";
    for (numbers, message) in [
        (["1", "3"], format!("3:1: frame 2 {frame} '3'")),
        (["2", "1"], format!("3:1: frame 3 {frame} '1'")),
        (["1", "5"], format!("3:1: frame 2 {frame} '5'")),
        (["7", "7"], format!("3:1: frame 8 {frame} '7'")),
        (["7", "+8"], format!("3:1: frame 8 {frame} '+8'")),
        (
            ["4294967295", "0"],
            "3:1: the end of the table is expected, found '0'".to_string(),
        ),
        (
            ["4294967295", "4294967296"],
            "3:1: the end of the table is expected, found '4294967296'".to_string(),
        ),
    ] {
        assert_fault(
            &format!("frame;harvest\n{};6\n{};6\n", numbers[0], numbers[1]),
            &message,
        );
    }
    assert_fault(
        "frame;harvest\n1.0;6\n",
        "2:1: a whole number up to 4294967295 is expected, found '1.0'",
    );
}

#[test]
fn frames_are_numbered_from_any_number() {
    for first in [0, 1, 7, 672, 673, u32::MAX - 1] {
        let table = format!("frame,harvest\n{first},6\n{},4\n", first + 1);
        assert_eq!(text_of(&table).1, format!("{HEAD}harvest\n6\n4\n"), "{first}");
    }
}

/// Where a clock is changed the date has to be known: by a year that stands first, a day above 12, or a midnight.
#[test]
fn a_changed_clock_needs_a_date_that_is_read_in_one_way() {
    let autumn = ["01:45-04:00", "01:00-05:00"];
    let known = [
        ("11/1/2026", "11/2/2026", "2026-11-01", "2026-11-02"),
        ("1-11-2026", "2-11-2026", "2026-11-01", "2026-11-02"),
    ];
    for (day, next, printed, printed_next) in known {
        let times = autumn.map(|clock| format!("{day} {clock}"));
        let told = format!(
            "3:1: a date that can be read in one way alone, such as 2026-11-01, where the clock is changed, is expected, \
             found '{}'",
            times[1]
        );
        assert_fault(&times_table(&[&times[0], &times[1]]), &told);
        // The midnight that follows says the order of day and month.
        let hours = |i: i64| format!("{:02}:{:02}", (60 + 15 * i) / 60, 15 * i % 60);
        let mut lines = vec![times[0].clone()];
        let mut shown = vec![format!("{printed}T{}", autumn[0])];
        for i in 0..92 {
            lines.push(format!("{day} {}-05:00", hours(i)));
            shown.push(format!("{printed}T{}", Minute(60 + 15 * i).hours_and("-05:00")));
        }
        lines.push(format!("{next} 00:00-05:00"));
        shown.push(format!("{printed_next}T00:00-05:00"));
        let lines: Vec<&str> = lines.iter().map(|line| &line[..]).collect();
        assert_times(
            &times_table(&lines),
            &shown.iter().map(|line| &line[..]).collect::<Vec<_>>(),
        );
    }
    // Times that have their offsets are not asked for them.
    assert_fault(
        &times_table(&["11/1/2026 01:45-04:00", "11/1/2026 01:00-04:00"]),
        "3:1: 02:00 (15 minutes after the frame before) or the end of the table is expected, found '11/1/2026 01:00-04:00'",
    );
}

/// Ranges in a line each: begin, length, and by how much both change from line to line, in minutes.
fn ranges(date: &str, [begin, length, step, longer]: [i64; 4]) -> Vec<String> {
    let clock = |minute: i64| format!("{:02}:{:02}", minute.rem_euclid(1440) / 60, minute.rem_euclid(60));
    let range = |i: i64| {
        let begins = begin + step * i;
        format!("{date}{}-{}", clock(begins), clock(begins + length + longer * i))
    };
    (0..4).map(range).collect()
}

/// Running totals, half hours and other ranges are no frames, though each might have its own offset from UTC.
#[test]
fn only_ranges_of_a_quarter_hour_are_frames() {
    let mut tried = 0;
    for date in ["", "2026-06-21 "] {
        for begin in [0, 360, 367, 700] {
            for (length, step, longer) in [5, 15, 30, 60, 75, 90, 120].into_iter().flat_map(|length| {
                let steps = [5, 15, 30, 60].into_iter();
                steps.flat_map(move |step| [-30, -15, 0, 15, 30, 60].map(move |longer| (length, step, longer)))
            }) {
                // An end that stays is an offset.
                if step + longer == 0 {
                    continue;
                }
                let times = ranges(date, [begin, length, step, longer]);
                let times: Vec<&str> = times.iter().map(|time| &time[..]).collect();
                let status = text_of(&times_table(&times)).0;
                let is_frames = (length, step, longer) == (15, 15, 0);
                assert_eq!(status, Some(if is_frames { 0 } else { 2 }), "{times:?}");
                tried += 1;
            }
        }
    }
    assert!(tried > 1000);
}

#[test]
fn what_is_no_clock_time_is_for_people() {
    let unread = (Some(0), format!("{HEAD}harvest\n6\n6\n"), String::new());
    for times in [
        ["noon", "noon"],
        ["", ""],
        ["-", ""],
        ["early", "late"],
        ["a: b", ":"],
        ["Mon", "total"],
    ] {
        assert_eq!(text_of(&times_table(&times)), unread, "{times:?}");
    }
    for (times, message) in [
        (
            ["noon", "06:15"],
            "3:1: a clock time for each frame or for none is expected, found '06:15'",
        ),
        (
            ["", "25:99"],
            "3:1: a clock time for each frame or for none is expected, found '25:99'",
        ),
    ] {
        assert_fault(&times_table(&times), message);
    }
    let forms = "a clock time in one cell, such as 06:00, 06:00-06:15, 21.06.2026 06:00 or 2026-06-21T06:00+02:00,";
    for time in [
        "6 h",
        "6h00",
        "0600",
        "06.00",
        "46188,010417",
        "2026-06-21",
        "6:",
        "15",
        "25:00",
        "24:15",
        "06:60",
        "6:5",
        "06:00 Uhr",
        "Mon 06:00",
        "06:00:00.5",
        "13:00 PM",
        "0:15 am",
        "06:00 - 07:00",
        "06:00+25:00",
        "2026-02-29 06:00",
        "2026-13-01 06:00",
        "31.6.2026 06:00",
        "13/13/2026 06:00",
        "2026-06-2106:00",
    ] {
        assert_fault(
            &times_table(&[time, time]),
            &format!("2:1: {forms} is expected, found '{time}'"),
        );
    }
    assert_fault(
        &times_table(&["9999-12-31 23:45", "10000-01-01 00:00"]),
        "3:1: the end of the table is expected, found '10000-01-01 00:00'",
    );
}

#[test]
fn midnight_and_the_ends_of_months_and_years_are_a_quarter_hour_long() {
    for (times, printed) in [
        (["23:45", "00:00"], ["23:45", "00:00"]),
        (["23:45", "24:00"], ["23:45", "00:00"]),
        (["24:00", "00:15"], ["00:00", "00:15"]),
        (["11:45 PM", "12:00 AM"], ["23:45", "00:00"]),
        (["11:45 am", "12:00 pm"], ["11:45", "12:00"]),
        (["23:45-24:00", "00:00-00:15"], ["23:45", "00:00"]),
        (["23:45-00:00", "24:00-00:15"], ["23:45", "00:00"]),
        (
            ["2026-06-21 23:45", "2026-06-22 00:00"],
            ["2026-06-21T23:45", "2026-06-22T00:00"],
        ),
        (
            ["2026-06-21 23:45", "2026-06-21 24:00"],
            ["2026-06-21T23:45", "2026-06-22T00:00"],
        ),
        (
            ["30.6.2026 23:45", "1.7.2026 0:00"],
            ["2026-06-30T23:45", "2026-07-01T00:00"],
        ),
        (
            ["2026/12/31 23:45", "2027/1/1 00:00"],
            ["2026-12-31T23:45", "2027-01-01T00:00"],
        ),
        (
            ["31.12.26 23:45", "31.12.26 24:00"],
            ["2026-12-31T23:45", "2027-01-01T00:00"],
        ),
        (
            ["2028-02-28 23:45", "2028-02-29 00:00"],
            ["2028-02-28T23:45", "2028-02-29T00:00"],
        ),
        (
            ["2028-02-29 23:45", "2028-03-01 00:00"],
            ["2028-02-29T23:45", "2028-03-01T00:00"],
        ),
        (
            ["2026-02-28 23:45", "2026-03-01 00:00"],
            ["2026-02-28T23:45", "2026-03-01T00:00"],
        ),
        (
            ["2100-02-28 23:45", "2100-03-01 00:00"],
            ["2100-02-28T23:45", "2100-03-01T00:00"],
        ),
        (
            ["2000-02-28 23:45", "2000-02-29 00:00"],
            ["2000-02-28T23:45", "2000-02-29T00:00"],
        ),
    ] {
        assert_times(&times_table(&times), &printed);
    }
    let quarter = "(15 minutes after the frame before) or the end of the table is expected, found";
    for (times, expected) in [
        (["2026-02-28 23:45", "2026-02-29 00:00"], "2026-03-01 00:00"),
        (["2028-02-28 23:45", "2028-03-01 00:00"], "2028-02-29 00:00"),
        (["2026-06-30 23:45", "2026-06-31 00:00"], "2026-07-01 00:00"),
        (["2026-12-31 23:45", "2026-01-01 00:00"], "2027-01-01 00:00"),
        (["23:45", "24:15"], "00:00"),
    ] {
        assert_fault(
            &times_table(&times),
            &format!("3:1: {expected} {quarter} '{}'", times[1]),
        );
    }
}

#[test]
fn times_end_with_the_year_9999() {
    assert_times(
        &times_table(&["9999-12-31 23:30", "9999-12-31 23:45"]),
        &["9999-12-31T23:30", "9999-12-31T23:45"],
    );
    for end in ["9999-12-31 24:00", "10000-01-01 00:00"] {
        let ran = run("text -", &times_table(&["9999-12-31 23:45", end]));
        assert_eq!((ran.status, ran.text().as_str()), (Some(2), ""), "{end}");
    }
}

#[test]
fn a_change_of_the_clock_is_told_by_offsets_alone() {
    let hint = "(15 minutes after the frame before; where the clock is changed, every line needs its offset, such as \
                2026-03-29 01:45+01:00) or the end of the table is expected, found";
    for (times, expected) in [
        (["01:45", "03:00"], "02:00"),
        (["02:45", "02:00"], "03:00"),
        (["2026-03-29 01:45", "2026-03-29 03:00"], "2026-03-29 02:00"),
        (["2026-10-25 02:45", "2026-10-25 02:00"], "2026-10-25 03:00"),
        (["29.3.2026 01:45", "29.3.2026 03:00"], "2026-03-29 02:00"),
        (["7/3/2026 01:45", "7/3/2026 03:00"], "02:00"),
        // Where the clock is changed at midnight.
        (["2026-03-27 23:45", "2026-03-28 01:00"], "2026-03-28 00:00"),
        (["2026-10-25 23:45", "2026-10-25 23:00"], "2026-10-26 00:00"),
    ] {
        assert_fault(&times_table(&times), &format!("3:1: {expected} {hint} '{}'", times[1]));
    }
    // A clock that goes on as if nothing had happened may stand for one that was not changed.
    assert_times(
        &times_table(&["2026-03-29 01:45", "2026-03-29 02:00"]),
        &["2026-03-29T01:45", "2026-03-29T02:00"],
    );
    for (times, printed) in [
        (
            ["2026-03-29T01:45+01:00", "2026-03-29T03:00+02:00"],
            ["2026-03-29T01:45+01:00", "2026-03-29T03:00+02:00"],
        ),
        (
            ["2026-10-25 02:45+02:00", "2026-10-25 02:00+01:00"],
            ["2026-10-25T02:45+02:00", "2026-10-25T02:00+01:00"],
        ),
        (["01:45+01:00", "03:00+02:00"], ["01:45+01:00", "03:00+02:00"]),
        (["02:45+0200", "02:00+01"], ["02:45+02:00", "02:00+01:00"]),
        (
            ["2026-06-21 00:45+01:00", "2026-06-21 00:00Z"],
            ["2026-06-21T00:45+01:00", "2026-06-21T00:00Z"],
        ),
    ] {
        assert_times(&times_table(&times), &printed);
    }
    // In a week a clock is changed once.
    let twice = ["01:30+01:00", "02:45+02:00", "02:00+01:00"];
    let told = "4:1: 03:00+02:00 (15 minutes after the frame before) or the end of the table is expected, found";
    assert_fault(&times_table(&twice), &format!("{told} '{}'", twice[2]));
    // With offsets a clock that goes on is another moment, and so is one that is put back without its offset.
    let quarter = "(15 minutes after the frame before) or the end of the table is expected, found";
    for (times, expected) in [
        (
            ["2026-03-29 01:45+01:00", "2026-03-29 03:00+01:00"],
            "2026-03-29 02:00+01:00",
        ),
        (
            ["2026-10-25 02:45+02:00", "2026-10-25 02:00+02:00"],
            "2026-10-25 03:00+02:00",
        ),
        (
            ["2026-03-29 01:45+01:00", "2026-03-29 02:00+02:00"],
            "2026-03-29 02:00+01:00",
        ),
    ] {
        assert_fault(
            &times_table(&times),
            &format!("3:1: {expected} {quarter} '{}'", times[1]),
        );
    }
}

#[test]
fn year_month_and_day_are_told_apart_by_the_whole_column() {
    for (times, printed) in [
        // Nothing says which is which: the times go without a date.
        (["6/7/2026 06:00", "6/7/2026 06:15"], ["06:00", "06:15"]),
        (
            ["06-07-2026 06:00+02:00", "06-07-2026 06:15+02:00"],
            ["06:00+02:00", "06:15+02:00"],
        ),
        // An offset behind UTC goes with it.
        (["06-07-2026 06:00-04:00", "06-07-2026 06:15-04:00"], ["06:00", "06:15"]),
        (["6/7/26 06:00", "6/7/26 06:15"], ["06:00", "06:15"]),
        // Midnight says it, and so does a number above 12.
        (
            ["6/7/2026 23:45", "7/7/2026 00:00"],
            ["2026-07-06T23:45", "2026-07-07T00:00"],
        ),
        (
            ["6/7/2026 23:45", "6/8/2026 00:00"],
            ["2026-06-07T23:45", "2026-06-08T00:00"],
        ),
        (
            ["21/6/2026 06:00", "21/6/2026 06:15"],
            ["2026-06-21T06:00", "2026-06-21T06:15"],
        ),
        (
            ["6/21/2026 6:00 AM", "6/21/2026 6:15 AM"],
            ["2026-06-21T06:00", "2026-06-21T06:15"],
        ),
        (
            ["30-06-2026 23:45", "01-07-2026 00:00"],
            ["2026-06-30T23:45", "2026-07-01T00:00"],
        ),
        (
            ["06-30-2026 23:45", "07-01-2026 00:00"],
            ["2026-06-30T23:45", "2026-07-01T00:00"],
        ),
        // The same day in either order.
        (
            ["6/6/2026 06:00", "6/6/2026 06:15"],
            ["2026-06-06T06:00", "2026-06-06T06:15"],
        ),
        (
            ["6/06/2026 06:00", "6/06/2026 06:15"],
            ["2026-06-06T06:00", "2026-06-06T06:15"],
        ),
        // A year of two digits may stand first too.
        (["26/06/21 06:00", "26/06/21 06:15"], ["06:00", "06:15"]),
        (["21-06-26 06:00", "21-06-26 06:15"], ["06:00", "06:15"]),
        (
            ["26/06/21 23:45", "26/06/22 00:00"],
            ["2026-06-21T23:45", "2026-06-22T00:00"],
        ),
        (
            ["21/06/26 23:45", "22/06/26 00:00"],
            ["2026-06-21T23:45", "2026-06-22T00:00"],
        ),
        (
            ["6/21/26 06:00", "6/21/26 06:15"],
            ["2026-06-21T06:00", "2026-06-21T06:15"],
        ),
        // A year of four digits that stands first, and dots, leave no doubt.
        (
            ["2026/6/7 06:00", "2026/6/7 06:15"],
            ["2026-06-07T06:00", "2026-06-07T06:15"],
        ),
        (
            ["6.7.2026 06:00", "6.7.2026 06:15"],
            ["2026-07-06T06:00", "2026-07-06T06:15"],
        ),
    ] {
        assert_times(&times_table(&times), &printed);
    }
    // No column has both orders, though each line may have either.
    for times in [
        ["6/7/2026 06:00", "7/6/2026 06:15"],
        ["6/21/2026 06:00", "21/6/2026 06:15"],
        ["12/6/2026 23:45", "6/13/2026 00:00"],
        ["6/7/2026 23:45", "8/6/2026 00:00"],
        ["26/06/21 06:00", "21/06/26 06:15"],
    ] {
        let ran = run("text -", &times_table(&times));
        assert_eq!((ran.status, ran.text().as_str()), (Some(2), ""), "{times:?}");
        assert!(ran.err.starts_with("standard input:3:1: "), "{}", ran.err);
    }
}

#[test]
fn one_frame_keeps_what_its_cell_says() {
    for (time, printed) in [
        ("06:00-06:15", "06:00"),
        ("2026-06-21 06:00-06:15", "2026-06-21T06:00"),
        ("2026-06-21 23:45 – 24:00", "2026-06-21T23:45"),
        ("2026-06-21T06:00:00-03:30", "2026-06-21T06:00-03:30"),
        ("24:00", "00:00"),
        ("6/7/2026 06:00", "06:00"),
        ("06:07:30", "06:07:30"),
    ] {
        assert_times(&times_table(&[time]), &[printed]);
    }
}

/// A table of frames with their times in one form, in half of all cases with their numbers.
#[derive(Clone, Debug)]
struct Day {
    form: Form,
    first: Minute,
    harvest: Vec<u32>,
    number: u32,
    names: Vec<&'static str>,
    separator: char,
}

fn days(frames: std::ops::Range<usize>) -> impl Strategy<Value = Day> {
    let names = prop_oneof![
        Just(vec!["harvest", "time"]).prop_shuffle(),
        Just(vec!["harvest", "time", "frame"]).prop_shuffle(),
        Just(vec!["harvest", "time", "frame", "loss"]).prop_shuffle(),
    ];
    let separators = select(vec![',', ';', '\t', ' ']);
    (
        forms(),
        minutes(),
        vec(0..100u32, frames),
        0..1000u32,
        names,
        separators,
    )
        .prop_map(|(form, first, harvest, number, names, separator)| Day {
            form,
            first,
            harvest,
            number,
            names,
            separator,
        })
}

/// A line of a day: the number of its frame, when it begins, and its harvest.
type Entry = (u32, Minute, u32);

impl Day {
    fn entries(&self) -> Vec<Entry> {
        let entry = |(i, harvest): (u32, &u32)| (self.number + i, self.first.later(15 * i64::from(i)), *harvest);
        (0..).zip(&self.harvest).map(entry).collect()
    }

    /// These lines as the day's table.
    fn table(&self, entries: &[Entry]) -> Table {
        let row = |(number, at, harvest): &Entry| {
            let cell = |name: &&str| match *name {
                "frame" => number.to_string(),
                "time" => self.form.write(*at),
                "harvest" => harvest.to_string(),
                _ => "7".to_string(),
            };
            self.names.iter().map(cell).collect()
        };
        Table {
            names: self.names.clone(),
            rows: entries.iter().map(row).collect(),
            separator: self.separator,
        }
    }

    /// The text of these lines if each follows the one before, else the row and column that does not.
    fn read(&self, entries: &[Entry]) -> Result<String, (usize, &'static str)> {
        for row in 1..entries.len() {
            let (before, line) = (&entries[row - 1], &entries[row]);
            let follows = |name: &&&str| match **name {
                "frame" => line.0 == before.0 + 1,
                "time" => self.is_next(before.1, line.1),
                _ => true,
            };
            if let Some(name) = self.names.iter().find(|name| !follows(name)) {
                return Err((row, name));
            }
        }
        let times: Vec<Minute> = entries.iter().map(|entry| entry.1).collect();
        let harvest: Vec<u32> = entries.iter().map(|entry| entry.2).collect();
        Ok(timed_text(&self.form.printed(&times, "T"), &harvest))
    }

    fn is_next(&self, before: Minute, at: Minute) -> bool {
        let apart = at.0 - before.0;
        apart == 15 || (self.form.date == Date::None && apart.rem_euclid(24 * 60) == 15)
    }
}

#[test]
fn times_in_every_form_are_read_and_printed_in_one() {
    check(500, days(1..40), |day| {
        let table = day.table(&day.entries()).text();
        let (status, text, err) = text_of(&table);
        prop_assert_eq!((status, err.as_str()), (Some(0), ""), "{}", table);
        prop_assert_eq!(&text, &day.read(&day.entries()).unwrap(), "{}", table);
        // What is printed is the same request again.
        prop_assert_eq!(Folder::new().run_with(&["text", "-"], text.as_bytes()).text(), text);
        let csv = run("plan --csv -", &table);
        prop_assert!(csv.status == Some(0) || csv.err.contains("refused 9 0"), "{}", csv.err);
        let times: Vec<Minute> = day.entries().iter().map(|entry| entry.1).collect();
        let rows: Vec<String> = csv.text().lines().skip(1).map(String::from).collect();
        let printed = day.form.printed(&times, " ");
        for (i, (row, time)) in rows.iter().zip(&printed).enumerate() {
            let begin = format!("{},{time},{},", i + 1, day.harvest[i]);
            prop_assert!(row.starts_with(&begin), "{} of {}", row, begin);
        }
        Ok(())
    });
}

/// What happens to the lines of a table.
#[derive(Clone, Copy, Debug)]
enum Change {
    Remove,
    Double,
    Swap,
    Delay(i64),
    Renumber(u32),
}

impl Change {
    /// The lines with one changed; another one is swapped with it.
    fn of(self, mut entries: Vec<Entry>, line: usize, other: usize) -> Vec<Entry> {
        match self {
            Change::Remove => drop(entries.remove(line)),
            Change::Double => entries.insert(line, entries[line]),
            Change::Swap => entries.swap(line, other),
            Change::Delay(minutes) => entries[line].1 = entries[line].1.later(minutes),
            Change::Renumber(number) => entries[line].0 = number,
        }
        entries
    }
}

fn changes() -> impl Strategy<Value = Change> {
    prop_oneof![
        Just(Change::Remove),
        Just(Change::Double),
        Just(Change::Swap),
        (-2000..2000i64).prop_map(Change::Delay),
        select(vec![-1440, -60, -15, -1, 1, 15, 60, 1440i64]).prop_map(Change::Delay),
        (0..1100u32).prop_map(Change::Renumber),
    ]
}

#[test]
fn a_changed_line_is_refused_at_its_place() {
    let cases = (days(2..40), changes(), any::<Index>(), any::<Index>());
    check(900, cases, |(day, change, line, other)| {
        let count = day.harvest.len();
        let entries = change.of(day.entries(), line.index(count), other.index(count));
        let table = day.table(&entries);
        let (status, text, err) = text_of(&table.text());
        match day.read(&entries) {
            Ok(read) => prop_assert_eq!((status, text), (Some(0), read), "{}", table.text()),
            Err((row, name)) => {
                prop_assert_eq!((status, text.as_str()), (Some(2), ""), "{}", table.text());
                let begin = format!("standard input:{}: ", table.place(row, name));
                prop_assert!(err.starts_with(&begin), "{} of {}", err, table.text());
                prop_assert!(err.contains(" or the end of the table is expected, found "), "{}", err);
            }
        }
        Ok(())
    });
}

#[test]
fn a_change_of_the_clock_in_any_line_is_read_with_offsets_and_refused_without() {
    let jumps = select(vec![
        ("+01:00", "+02:00", 60),
        ("+02:00", "+01:00", -60),
        ("-04:00", "-05:00", -60),
    ]);
    let cases = (minutes(), 2..40usize, any::<Index>(), jumps);
    check(200, cases, |(first, frames, at, (before, behind, jump))| {
        let changed = 1 + at.index(frames - 1);
        let time = |i: usize| first.later(15 * i as i64);
        let local = |i: usize| {
            if i < changed {
                (time(i), before)
            } else {
                (time(i).later(jump), behind)
            }
        };
        let shown = |i: usize, offsets: bool| {
            let (at, offset) = local(i);
            let offset = if offsets { offset } else { "" };
            format!("{} {}{offset}", at.iso(), at.hours())
        };
        let table = |offsets: bool| {
            let times: Vec<String> = (0..frames).map(|i| shown(i, offsets)).collect();
            times_table(&times.iter().map(|time| &time[..]).collect::<Vec<_>>())
        };
        let print = |(at, offset): (Minute, &str)| format!("{}T{}", at.iso(), at.hours_and(offset));
        let printed: Vec<String> = (0..frames).map(|i| print(local(i))).collect();
        let read = timed_text(&printed, &vec![6; frames]);
        prop_assert_eq!(text_of(&table(true)), (Some(0), read, String::new()));
        let (status, text, err) = text_of(&table(false));
        prop_assert_eq!((status, text.as_str()), (Some(2), ""));
        let begin = format!("standard input:{}:1: ", changed + 2);
        prop_assert!(
            err.starts_with(&begin) && err.contains("every line needs its offset"),
            "{}",
            err
        );
        Ok(())
    });
}

/// Cells made of what clock times are made of.
fn cells_like_times() -> impl Strategy<Value = String> {
    let pieces = vec![
        "0",
        "1",
        "06",
        "12",
        "15",
        "24",
        "31",
        "59",
        "2026",
        "9999",
        ":",
        ":",
        ":00",
        "06:00",
        "24:00",
        "-",
        "/",
        ".",
        "+",
        "–",
        "T",
        "Z",
        " ",
        "am",
        "PM",
        "ü",
        "\u{202f}",
        "2026-06-21",
        "21.6.2026",
        "6/7/2026",
        "+02:00",
        "-06:15",
    ];
    vec(select(pieces), 1..7).prop_map(|pieces| pieces.concat().trim_matches(' ').to_string())
}

#[test]
fn any_cell_is_a_time_or_a_fault_or_for_people() {
    check(1000, cells_like_times(), |cell| {
        let (status, text, err) = text_of(&times_table(&[&cell]));
        if status == Some(2) {
            let begin = "standard input:2:1: a clock time in one cell, such as 06:00";
            prop_assert!(text.is_empty() && err.starts_with(begin), "{:?}: {}", cell, err);
            return Ok(());
        }
        prop_assert_eq!((status, err.as_str()), (Some(0), ""), "{:?}", cell);
        let tells_time = cell.chars().any(|c| c.is_ascii_digit());
        prop_assert_eq!(text.contains("\ntime harvest\n"), tells_time, "{:?}", cell);
        // What is printed is read again.
        let again = Folder::new().run_with(&["text", "-"], text.as_bytes());
        prop_assert_eq!(again.status, Some(0), "{:?}: {}", cell, again.err);
        Ok(())
    });
}
