//! Every command of the built program, accepted and refused, with what it prints and its status.

mod common;

use common::{bounded_text, budget_table, check, day_words, request_text, Folder, Ran, DAY};
use energy::{
    Energy, Figures, LISTING_BYTES, MAX_BOUND, MAX_CAPACITY, MAX_FILE_BYTES, MAX_FRAMES, MAX_HARVEST, NO_UPPER_END,
};
use evidence::lists::Lists;
use evidence::reference::Reference;
use proptest::prelude::*;
use std::cell::{Cell, RefCell};
use std::collections::BTreeSet;
use std::fs;

const TABLE: &str = "\
frame  harvest  budget  charge  loss
    1        6       4       4     0
    2        4       3       5     0
    3        0       3       2     0
    4        0       2       0     0
    5        5       4       1     0
    6        5       4       2     0
";

const LISTING: &str = "\
frames 6 capacity 5 needed 6
1 4 4 0
2 3 5 0
3 3 2 0
4 2 0 0
5 4 1 0
6 4 2 0
worth 320 480 100
";

const CSV: &str = "\
frame,harvest,budget,charge,loss
1,6,4,4,0
2,4,3,5,0
3,0,3,2,0
4,0,2,0,0
5,5,4,1,0
6,5,4,2,0
";

/// The day as text, as a table alone, and as a word file.
fn folder_of_each_form() -> Folder {
    let folder = Folder::of_the_day();
    folder.write("day.csv", "\u{feff}\"harvest\"\r\n6\r\n4\r\n0\r\n0\r\n5\r\n5");
    folder.write("day.words", day_words());
    folder
}

const FIGURES: [&str; 6] = ["--capacity", "5", "--start", "2", "--end", "2"];

fn assert_done(ran: &Ran, out: &str) {
    assert_eq!((ran.status, ran.text().as_str(), ran.err.as_str()), (Some(0), out, ""));
}

#[test]
fn a_plan_is_a_table_with_a_summary_in_words() {
    let folder = folder_of_each_form();
    let words = "
6 frames: 20 Wh harvested, 20 Wh budgeted (mean 3.3, most 4), 0 Wh lost.
The charge goes from 2 to 2 Wh, and is at most 5 Wh after a frame, of a capacity of 5 Wh.
A capacity of 6 Wh would serve every curve as well as unlimited storage.
Worth 320 480 100 by house curves 0, 1 and 2.
";
    let shown = format!("{TABLE}{words}");
    assert_done(&folder.run(&["plan", "day.txt"]), &shown);
    assert_done(&folder.run(&["plan", "day.words"]), &shown);
    assert_done(&folder.run(&[&["plan", "day.csv"], &FIGURES[..]].concat()), &shown);
    assert_done(&folder.run_with(&["plan", "-"], DAY.as_bytes()), &shown);
    assert_done(&folder.run_with(&["plan", "-"], &day_words()), &shown);
}

#[test]
fn a_listing_is_document_01s() {
    let folder = folder_of_each_form();
    for request in ["day.txt", "day.words"] {
        assert_done(&folder.run(&["plan", "--listing", request]), LISTING);
    }
    let other = folder.run(&["plan", "--listing", "day.words", "--capacity", "6"]);
    assert_eq!(other.text().lines().next(), Some("frames 6 capacity 6 needed 6"));
}

#[test]
fn a_table_for_a_spreadsheet_is_read_again() {
    let folder = folder_of_each_form();
    let table = folder.run(&["plan", "--csv", "day.txt"]);
    assert_done(&table, CSV);
    let without_losses = CSV.replace(",loss", "").replace(",0\n", "\n");
    for table in [CSV, &without_losses] {
        let traced = folder.run_with(&["trace", "--csv", "day.txt", "-"], table.as_bytes());
        assert_done(&traced, CSV);
        let planned = folder.run_with(&[&["plan", "--csv", "-"], &FIGURES[..]].concat(), table.as_bytes());
        assert_done(&planned, CSV);
    }
}

/// The day's request with these bounds.
fn bounded_day(least: [u32; 6], most: [u32; 6]) -> String {
    let lists = Lists {
        harvest: vec![6, 4, 0, 0, 5, 5],
        least: least.to_vec(),
        most: most.to_vec(),
    };
    let (capacity, start, end) = (5, 2, 2);
    bounded_text(Figures { capacity, start, end }, lists.frames())
}

const NO_MOSTS: [u32; 6] = [NO_UPPER_END; 6];

/// A most of 3 Wh in the first frame and a least of 3 Wh in the fourth one.
const BOUNDED: &str = "capacity 5\nstart 2\nend 2\nharvest least most\n6 - 3\n4 - -\n0 - -\n0 3 -\n5 - -\n5 - -\n";

/// Its word file: a most word behind the first harvest, a least word behind the fourth one.
fn bounded_words() -> Vec<u8> {
    let words = day_words();
    let [most, least] = [3_u32 | 5 << 29, 3 | 4 << 29].map(u32::to_le_bytes);
    [&words[..16], &most, &words[16..28], &least, &words[28..]].concat()
}

#[test]
fn a_bounded_plan_shows_its_bounds() {
    let folder = Folder::new();
    folder.write("bounded.txt", BOUNDED);
    folder.write("bounded.words", bounded_words());
    let shown = "\
frame  harvest  least  most  budget  charge  loss
    1        6      -     3       3       5     0
    2        4      -     -       4       5     0
    3        0      -     -       2       3     0
    4        0      3     -       3       0     0
    5        5      -     -       4       1     0
    6        5      -     -       4       2     0

6 frames: 20 Wh harvested, 20 Wh budgeted (mean 3.3, largest 4), 0 Wh lost.
The charge goes from 2 to 2 Wh, and is at most 5 Wh after a frame, of a capacity of 5 Wh.
Within the bounds, a capacity of 6 Wh would serve every curve as well as unlimited storage.
Worth 320 480 100 by house curves 0, 1 and 2.
";
    let csv = "\
frame,harvest,least,most,budget,charge,loss
1,6,,3,3,5,0
2,4,,,4,5,0
3,0,,,2,3,0
4,0,3,,3,0,0
5,5,,,4,1,0
6,5,,,4,2,0
";
    let listing =
        "frames 6 capacity 5 needed 6\n1 3 5 0\n2 4 5 0\n3 2 3 0\n4 3 0 0\n5 4 1 0\n6 4 2 0\nworth 320 480 100\n";
    for request in ["bounded.txt", "bounded.words"] {
        assert_done(&folder.run(&["plan", request]), shown);
        assert_done(&folder.run(&["plan", "--csv", request]), csv);
        assert_done(&folder.run(&["plan", "--listing", request]), listing);
        assert_done(&folder.run(&["needed", request]), "needed capacity 6 Wh\n");
        assert_done(&folder.run(&["text", request]), BOUNDED);
        assert_eq!(folder.run(&["words", request]).out, bounded_words());
    }
    // What is printed for a spreadsheet is the same request again.
    let again = |command: &[&str]| folder.run_with(&[command, &FIGURES[..]].concat(), csv.as_bytes());
    assert_done(&again(&["plan", "--csv", "-"]), csv);
    assert_done(&again(&["text", "-"]), BOUNDED);
    assert_done(
        &folder.run_with(&["grade", "-"], csv.as_bytes()),
        "worth 320 480 100 by house curves 0, 1 and 2\n",
    );
}

#[test]
fn only_the_bounds_that_there_are_have_a_column() {
    let folder = Folder::new();
    for (least, most, names, first) in [
        ([0, 0, 0, 3, 0, 0], NO_MOSTS, "least", "1,6,,4,4,0"),
        (
            [0; 6],
            [3, NO_UPPER_END, NO_UPPER_END, NO_UPPER_END, NO_UPPER_END, 9],
            "most",
            "1,6,3,3,5,0",
        ),
        ([0, 0, 0, 0, 6, 0], [9; 6], "least,most", "1,6,,9,4,4,0"),
    ] {
        let plan = folder.run_with(&["plan", "--csv", "-"], bounded_day(least, most).as_bytes());
        let head = format!("frame,harvest,{names},budget,charge,loss\n{first}\n");
        assert!(plan.text().starts_with(&head), "{}{}", plan.text(), plan.err);
        let text = folder.run_with(&[&["text", "-"], &FIGURES[..]].concat(), &plan.out);
        assert_done(&text, &bounded_day(least, most));
    }
    // Bounds that say nothing leave everything as it is without them.
    let table = "harvest least most\n6 0 4294967295\n4 - -\n0 - -\n0 - -\n5 0 -\n5 - 4294967295\n";
    for (command, shown) in [("plan --csv -", CSV), ("plan --listing -", LISTING), ("text -", DAY)] {
        let line = format!("{command} {}", FIGURES.join(" "));
        assert_done(&folder.line_with(&line, table), shown);
    }
    let words = folder.run_with(&[&["words", "-"], &FIGURES[..]].concat(), table.as_bytes());
    assert_eq!(words.out, day_words());
}

#[test]
fn mosts_may_leave_energy_to_be_lost_and_to_be_kept() {
    let folder = Folder::new();
    let shown = "\
frame  harvest  most  budget  charge  loss
    1        6     1       1       5     2
    2        4     1       1       5     3
    3        0     1       1       4     0
    4        0     1       1       3     0
    5        5     1       1       5     2
    6        5     1       1       5     4

6 frames: 20 Wh harvested, 6 Wh budgeted (mean 1.0, largest 1), 11 Wh lost that the full battery could not take.
The charge goes from 2 to 5 Wh, where 2 Wh were asked for, and is at most 5 Wh after a frame, of a capacity of 5 Wh.
Within the bounds, a capacity of 2 Wh would serve every curve as well as unlimited storage.
Worth 96 144 30 by house curves 0, 1 and 2.
";
    let request = bounded_day([0; 6], [1; 6]);
    assert_done(&folder.run_with(&["plan", "-"], request.as_bytes()), shown);
    assert_done(
        &folder.run_with(&["needed", "-"], request.as_bytes()),
        "needed capacity 2 Wh\n",
    );
    let picture = folder
        .run_with(&["plan", "-", "--chart", "-"], request.as_bytes())
        .text();
    for name in ["needed capacity 2 Wh", "of it lost to a full battery (11 Wh in all)"] {
        assert!(picture.contains(&format!("\n{name}\n")), "{name}");
    }
}

#[test]
fn a_trace_tells_where_budgets_leave_the_bounds() {
    let folder = Folder::new();
    folder.write("bounded.txt", BOUNDED);
    let feasible = "the charge ends at 2 Wh, and 2 Wh were asked for.";
    let outside = [
        "Not within the bounds in frame 1: its budget of 4 Wh is above its most of 3 Wh.",
        "Not within the bounds in 2 frames, first in frame 1: its budget of 4 Wh is above its most of 3 Wh.",
        "Not within the bounds in frame 4: its budget of 2 Wh is below its least of 3 Wh.",
    ];
    for (budgets, bounds, verdict) in [
        ("3 4 2 3 4 4", None, format!("Feasible: {feasible}")),
        (
            "4 3 2 3 4 4",
            Some(outside[0]),
            format!("Feasible apart from the bounds: {feasible}"),
        ),
        (
            "4 3 3 2 4 4",
            Some(outside[1]),
            format!("Feasible apart from the bounds: {feasible}"),
        ),
        (
            "3 6 2 2 4 4",
            Some(outside[2]),
            "Not feasible: the charge after frame 4 is below zero.".to_string(),
        ),
        (
            "3 9 2 3 4 4",
            None,
            "Not feasible: the charge after frame 3 is below zero.".to_string(),
        ),
    ] {
        let trace = |more: &[&str]| {
            let ran = folder.run_with(&[&["trace", "bounded.txt", "-"], more].concat(), budgets.as_bytes());
            assert_eq!(ran.status, Some(0), "{}", ran.err);
            ran
        };
        let table = trace(&[]);
        let said = format!(
            "\n{}\n{verdict}\n",
            bounds.unwrap_or("Every budget is within its bounds.")
        );
        assert!(
            table.text().ends_with(&said) && table.err.is_empty(),
            "{}",
            table.text()
        );
        assert!(table
            .text()
            .starts_with("frame  harvest  least  most  budget  charge  loss\n"));
        // Where words have no place, what is amiss is told on standard error.
        let is_amiss = verdict.starts_with("Not").then_some(verdict.as_str());
        let told: String = bounds
            .into_iter()
            .chain(is_amiss)
            .map(|line| format!("gomzhiva: {line}\n"))
            .collect();
        assert_eq!((&trace(&["--csv"]).err, &trace(&["--chart", "-"]).err), (&told, &told));
        let title = trace(&["--chart", "-"]).text();
        let amiss = match (is_amiss, bounds) {
            (None, None) => "",
            (None, Some(_)) => ": not within the bounds",
            (Some(_), None) => ": not feasible",
            (Some(_), Some(_)) => ": not feasible, and not within the bounds",
        };
        let expected = format!("\nstandard input traced with bounded.txt{amiss}\n");
        assert!(title.contains(&expected), "{budgets}");
    }
    // The tracer looks at no bounds, so it refuses none either.
    let crossed = BOUNDED.replace("0 3 -", "0 3 1");
    let ran = folder.run_with(&["trace", "-", "bounded.txt"], crossed.as_bytes());
    assert_eq!(ran.status, Some(2), "a request is no budgets: {}", ran.err);
    folder.write("budgets", "3 4 2 3 4 4");
    let ran = folder.run_with(&["trace", "-", "budgets"], crossed.as_bytes());
    assert_eq!((ran.status, ran.err.as_str()), (Some(0), ""));
    let above = "Not within the bounds in frame 4: its budget of 3 Wh is above its most of 1 Wh.\n";
    assert!(ran.text().contains(above), "{}", ran.text());
}

#[test]
fn bounds_that_cannot_be_are_refused_with_their_frame() {
    let folder = Folder::new();
    let limit = "the limit of 536870911 Wh";
    for (bounds, sentence) in [
        ("3 1", "least of frame 2 is 3 Wh, above its most of 1 Wh".to_string()),
        (
            "536870912 -",
            format!("least of frame 2 is 536870912 Wh, above {limit}"),
        ),
        (
            "536870912 3",
            format!("least of frame 2 is 536870912 Wh, above {limit}"),
        ),
        ("- 536870912", format!("most of frame 2 is 536870912 Wh, above {limit}")),
        (
            "4294967295 4294967295",
            format!("least of frame 2 is 4294967295 Wh, above {limit}"),
        ),
    ] {
        let request = format!("capacity 5\nstart 2\nend 2\nharvest least most\n6 - -\n4 {bounds}\n5 9 1\n");
        for command in [
            "plan -",
            "plan --listing -",
            "needed -",
            "words - out",
            "shift start - --journal out",
        ] {
            let ran = folder.line_with(command, &request);
            assert_refused(&ran, "refused 10 2");
            assert_eq!(
                ran.err,
                format!("gomzhiva: refused 10 2: the {sentence}\n"),
                "{command}"
            );
        }
        assert!(folder.names().is_empty());
        // The text of a request is there whatever the library says of it.
        assert_eq!(folder.run_with(&["text", "-"], request.as_bytes()).status, Some(0));
    }
    // A word file can hold such bounds too.
    let words = bounded_words();
    let crossed = [&words[..16], &(4_u32 | 4 << 29).to_le_bytes(), &words[16..]].concat();
    folder.write("crossed", crossed);
    for command in [
        &["plan", "crossed"][..],
        &["plan", "--listing", "crossed"],
        &["needed", "crossed"],
    ] {
        let ran = folder.run(command);
        assert_refused(&ran, "refused 10 1");
        assert!(
            ran.err
                .ends_with(": the least of frame 1 is 4 Wh, above its most of 3 Wh\n"),
            "{}",
            ran.err
        );
    }
}

#[test]
fn a_plan_and_the_needed_capacity_can_differ_in_what_is_feasible() {
    let folder = Folder::new();
    let request = "capacity 2\nstart 0\nend 0\nharvest least\n6 -\n0 5\n";
    let refused = folder.run_with(&["plan", "-"], request.as_bytes());
    assert_refused(&refused, "refused 11 0");
    assert_done(
        &folder.run_with(&["needed", "-"], request.as_bytes()),
        "needed capacity 5 Wh\n",
    );
    let larger = folder.run_with(&["plan", "--csv", "-", "--capacity", "5"], request.as_bytes());
    assert_done(
        &larger,
        "frame,harvest,least,budget,charge,loss\n1,6,,1,5,0\n2,0,5,5,0,0\n",
    );
}

#[test]
fn leasts_out_of_reach_are_refused_with_where_and_how_much() {
    let folder = Folder::new();
    let plans = ["plan -", "plan --listing -", "shift start - --journal out"];
    let reach = "the leasts are out of reach: as budgets they";
    let (most, all) = ("1000000000", "400000 -\n0 536870911\n");
    let refused = |commands: &[&str], figures: [&str; 3], frames: &str, sentence: &str| {
        let [capacity, start, end] = figures;
        let request = format!("capacity {capacity}\nstart {start}\nend {end}\nharvest least\n{frames}");
        for command in commands {
            let ran = folder.line_with(command, &request);
            assert_refused(&ran, "refused 11 0");
            let advice = match *command {
                "plan -" => "; `--without-leasts` plans what can be done without them",
                _ => "",
            };
            let told = format!("gomzhiva: refused 11 0: {sentence}{advice}\n");
            assert_eq!(ran.err, told, "{command} of {request}");
        }
        assert!(folder.names().is_empty());
    };
    // With a larger battery they are feasible.
    let dry =
        format!("{reach} run the store dry in frame 2, with 3 Wh missing there; a capacity of 5 Wh would be enough");
    refused(&plans, ["2", "0", "0"], "6 -\n0 5\n", &dry);
    let low = format!("{reach} leave 2 Wh, and 3 Wh were asked for; a capacity of 6 Wh would be enough");
    refused(&plans, ["5", "0", "3"], "6 -\n0 3\n", &low);
    // With a fuller battery they are, and with none that is larger.
    let every = [&plans[..], &["needed -"]].concat();
    let low = format!("{reach} leave 1 Wh, and 2 Wh were asked for; a start charge of 3 Wh would be enough");
    refused(&every, ["5", "2", "2"], "6 7\n0 -\n", &low);
    let dry = format!(
        "{reach} run the store dry in frame 2, with 1 Wh missing there; a start charge of 3 Wh would be enough"
    );
    refused(&every, ["9", "2", "2"], "6 7\n0 2\n9 -\n", &dry);
    // One that is larger than any may be is no advice.
    let neither = "no start charge and no capacity alone would be enough";
    let dry = format!("{reach} run the store dry in frame 3, with 400000 Wh missing there; {neither}");
    let below = ["999999999"; 2];
    refused(&plans, [below[0], below[1], "0"], &format!("{all}0 463529088\n"), &dry);
    // The needed capacity goes by unlimited storage, where frame 3 has enough; the largest capacity loses all of frame 1.
    let needed = ["needed -"];
    let dry = |frame, missing| format!("{reach} run the store dry in frame {frame}, with {missing} Wh missing there");
    let frames = format!("{all}0 463300000\n0 300000\n");
    let none = "no start charge would be enough";
    let unlimited = format!("{}; {none}", dry(4, 70911));
    refused(&needed, ["5", most, "0"], &frames, &unlimited);
    let largest = format!("{}; {neither}", dry(3, 170911));
    refused(&plans, [most, most, "0"], &frames, &largest);
    let frames = format!("{all}0 463300000\n0 100000\n");
    let enough = format!("{}; a start charge of 999870911 Wh would be enough", dry(4, 70911));
    refused(&needed, ["5", "999800000", "0"], &frames, &enough);
    // A start charge that is larger than any may be is no advice either.
    let frames = format!("{all}0 463300000\n");
    let low = |end| format!("{reach} leave 129089 Wh, and {end} Wh were asked for");
    let enough = format!("{}; a start charge of 999970911 Wh would be enough", low("200000"));
    refused(&needed, ["5", "999900000", "200000"], &frames, &enough);
    let above = format!("{}; {none}", low("300000"));
    refused(&needed, ["5", "999900000", "300000"], &frames, &above);
    // What is named is accepted, and one less is not.
    let request = format!("capacity 5\nstart 5\nend 200000\nharvest least\n{frames}");
    for (start, status) in [("999970911", 0), ("999970910", 1)] {
        let ran = folder.run_with(&["needed", "-", "--start", start], request.as_bytes());
        assert_eq!(ran.status, Some(status), "{}", ran.err);
    }
}

#[test]
fn figures_given_as_options_replace_those_of_the_request() {
    let folder = folder_of_each_form();
    let budgets = |arguments: &[&str]| {
        let ran = folder.run(arguments);
        assert_eq!(ran.status, Some(0), "{}", ran.err);
        let rows = ran.text();
        let budget = |row: &str| row.split(',').nth(2).expect("a budget").to_string();
        rows.lines().skip(1).map(budget).collect::<Vec<_>>().join(" ")
    };
    for request in ["day.txt", "day.words"] {
        assert_eq!(budgets(&["plan", "--csv", request, "--capacity", "6"]), "3 3 3 3 4 4");
        assert_eq!(
            budgets(&["plan", "--csv", request, "--end", "0", "--start", "0"]),
            "3 3 2 2 5 5"
        );
    }
}

#[test]
fn the_needed_capacity() {
    let folder = folder_of_each_form();
    assert_done(&folder.run(&["needed", "day.txt"]), "needed capacity 6 Wh\n");
    assert_done(
        &folder.run(&["needed", "day.words", "--start", "7"]),
        "needed capacity 8 Wh\n",
    );
    assert_done(
        &folder.run(&["needed", "day.csv", "--start", "2", "--end", "2"]),
        "needed capacity 6 Wh\n",
    );
}

#[test]
fn a_trace_has_its_losses_and_its_verdict() {
    let folder = folder_of_each_form();
    for (budgets, capacity, charges, losses, words) in [
        (
            "4 4 4 4 2 2",
            "22",
            "4 4 0 -4 -1 2",
            "0 0 0 0 0 0",
            "6 frames: 20 Wh harvested, 20 Wh budgeted (mean 3.3, most 4), 0 Wh lost.\n\
             Not feasible: the charge after frame 4 is below zero.\n",
        ),
        (
            "4 3 3 2 4 4",
            "5",
            "4 5 2 0 1 2",
            "0 0 0 0 0 0",
            "6 frames: 20 Wh harvested, 20 Wh budgeted (mean 3.3, most 4), 0 Wh lost.\n\
             Feasible: the charge ends at 2 Wh, and 2 Wh were asked for.\n",
        ),
        (
            "budget\n4\n3\n3\n2\n4\n5\n",
            "5",
            "4 5 2 0 1 1",
            "0 0 0 0 0 0",
            "6 frames: 20 Wh harvested, 21 Wh budgeted (mean 3.5, most 5), 0 Wh lost.\n\
             Not feasible: the charge ends at 1 Wh, below the end charge of 2 Wh.\n",
        ),
        (
            "0 0 0 0 0 0",
            "5",
            "5 5 5 5 5 5",
            "3 4 0 0 5 5",
            "6 frames: 20 Wh harvested, 0 Wh budgeted (mean 0.0, most 0), 17 Wh lost that the full battery could not take.\n\
             Feasible: the charge ends at 5 Wh, and 2 Wh were asked for.\n",
        ),
    ] {
        let ran = folder.run_with(&["trace", "day.txt", "-", "--capacity", capacity], budgets.as_bytes());
        assert_eq!((ran.status, ran.err.as_str()), (Some(0), ""));
        let text = ran.text();
        let (table, said) = text.split_once("\n\n").expect("a table and words");
        let column = |place: usize| {
            let cells = table.lines().skip(1).map(|row| row.split_whitespace().nth(place));
            cells
                .collect::<Option<Vec<&str>>>()
                .expect("a cell in each row")
                .join(" ")
        };
        assert_eq!((column(3).as_str(), column(4).as_str(), said), (charges, losses, words));
    }
}

#[test]
fn budgets_are_graded() {
    let folder = folder_of_each_form();
    let worth = "worth 320 480 100 by house curves 0, 1 and 2\n";
    assert_done(&folder.run_with(&["grade", "-"], b"4 3 3\n2 4 4"), worth);
    assert_done(&folder.run_with(&["grade", "-"], CSV.as_bytes()), worth);
    assert_refused(&folder.run_with(&["grade", "-"], b"budget\n"), "refused 1 0");
    let many = "1\n".repeat(MAX_FRAMES + 1);
    assert_refused(&folder.run_with(&["grade", "-"], many.as_bytes()), "refused 2 0");
}

#[test]
fn a_word_file_and_its_text() {
    let folder = folder_of_each_form();
    assert_done(&folder.run(&["words", "day.txt", "made.words"]), "");
    assert_eq!(folder.read("made.words"), day_words());
    assert_eq!(folder.run(&["words", "day.txt"]).out, day_words());
    assert_eq!(folder.run(&["words", "day.txt", "-"]).out, day_words());
    assert_done(&folder.run(&["text", "day.words", "made.txt"]), "");
    assert_eq!(folder.read("made.txt"), DAY.as_bytes());
    assert_done(&folder.run(&["text", "day.words"]), DAY);
    assert_done(
        &folder.run(&["text", "day.words", "--end", "3"]),
        &DAY.replace("end 2", "end 3"),
    );
    // What the reader takes and the writer does not: the text is there, and its word file is refused.
    folder.write(
        "high.words",
        [&[9, 0, 0, 0], &day_words()[4..8], &[10], &day_words()[9..]].concat(),
    );
    let text = folder.run(&["text", "high.words"]);
    assert_done(
        &text,
        &DAY.replace("capacity 5", "capacity 9").replace("end 2", "end 10"),
    );
    let words = folder.run_with(&["words", "-", "high.again"], &text.out);
    assert_refused(&words, "refused 5 0");
    assert!(!folder.file("high.again").exists());
}

/// Document 01's line on standard output, and the same with a sentence on standard error.
fn assert_refused(ran: &Ran, line: &str) {
    assert_eq!((ran.status, ran.text()), (Some(1), format!("{line}\n")), "{}", ran.err);
    assert_told(ran, line);
}

/// A refusal where standard output is the product: it is told on standard error alone.
fn assert_refused_silently(ran: &Ran, line: &str) {
    assert_eq!((ran.status, ran.text().as_str()), (Some(1), ""), "{}", ran.err);
    assert_told(ran, line);
}

fn assert_told(ran: &Ran, line: &str) {
    let sentence = ran.err.strip_prefix(&format!("gomzhiva: {line}: ")).unwrap_or_default();
    assert!(sentence.len() > 10 && sentence.ends_with('\n'), "{:?}", ran.err);
    assert_eq!(ran.err.lines().count(), 1, "{:?}", ran.err);
}

#[test]
fn every_refusal_of_a_request() {
    let folder = Folder::new();
    let frames = |count: usize| request_text(5, 2, 2, &vec![1; count]);
    let high = MAX_CAPACITY + 1;
    let sunny = [1, MAX_HARVEST + 1, MAX_HARVEST + 1];
    let bounded = |harvest: [u32; 2], least: [u32; 2], most: [u32; 2]| {
        let [harvest, least, most] = [harvest, least, most].map(Vec::from);
        let (capacity, start, end) = (8, 2, 5);
        bounded_text(
            Figures { capacity, start, end },
            Lists { harvest, least, most }.frames(),
        )
    };
    for (request, plan, needed, trace, words) in [
        (frames(0), "1 0", "1 0", "1 0", "1 0"),
        (frames(MAX_FRAMES + 1), "2 0", "2 0", "2 0", "2 0"),
        (request_text(high, 2, 2, &[1]), "3 0", "", "3 0", "3 0"),
        (request_text(5, high, 2, &[1]), "4 0", "3 0", "4 0", "4 0"),
        (request_text(5, 6, 2, &[1]), "4 0", "", "4 0", "4 0"),
        (request_text(5, 2, 6, &[1]), "5 0", "9 3", "5 0", "5 0"),
        (request_text(5, 2, 2, &sunny), "6 2", "6 2", "6 2", "6 2"),
        (request_text(8, 3, 8, &[4]), "9 1", "9 1", "", ""),
        (
            bounded([9, MAX_HARVEST + 1], [5, 5], [0, 0]),
            "6 2",
            "6 2",
            "6 2",
            "6 2",
        ),
        (bounded([0, 0], [1, 3], [1, 2]), "10 2", "10 2", "", "10 2"),
        (
            bounded([9, 9], [0, MAX_BOUND + 1], [5, NO_UPPER_END]),
            "10 2",
            "10 2",
            "",
            "10 2",
        ),
        (bounded([9, 9], [0, 0], [MAX_BOUND + 1, 5]), "10 1", "10 1", "", "10 1"),
        (bounded([0, 0], [3, 0], [MAX_BOUND, NO_UPPER_END]), "9 3", "9 3", "", ""),
        (
            bounded([9, 0], [12, 0], [MAX_BOUND, NO_UPPER_END]),
            "11 0",
            "11 0",
            "",
            "",
        ),
        (bounded([9, 0], [0, 8], [9, NO_UPPER_END]), "11 0", "", "", ""),
    ] {
        folder.write("request", &request);
        let budgets = format!("budget\n{}", "0\n".repeat(request.lines().count() - 4));
        folder.write("budgets", budgets);
        let calls: [(&[&str], &str); 6] = [
            (&["plan", "request"], plan),
            (&["plan", "request", "--chart", "out.svg"], plan),
            (&["shift", "start", "request", "--journal", "journal"], plan),
            (&["needed", "request"], needed),
            (&["trace", "request", "budgets"], trace),
            (&["words", "request", "out.words"], words),
        ];
        for (arguments, line) in calls.into_iter().filter(|(_, line)| !line.is_empty()) {
            assert_refused(&folder.run(arguments), &format!("refused {line}"));
        }
        assert_refused(
            &folder.run(&["plan", "--listing", "request"]),
            &format!("refused {plan}"),
        );
        let products: [(&[&str], &str); 5] = [
            (&["plan", "--csv", "request"], plan),
            (&["plan", "request", "--chart", "-"], plan),
            (&["trace", "--csv", "request", "budgets"], trace),
            (&["trace", "request", "budgets", "--chart", "-"], trace),
            (&["words", "request"], words),
        ];
        for (arguments, line) in products.into_iter().filter(|(_, line)| !line.is_empty()) {
            assert_refused_silently(&folder.run(arguments), &format!("refused {line}"));
        }
        assert_eq!(
            folder.names(),
            ["budgets", "request"],
            "a refusal leaves nothing behind"
        );
    }
}

#[test]
fn budgets_of_another_length_and_malformed_files_are_refused() {
    let folder = folder_of_each_form();
    let short = folder.run_with(&["trace", "day.txt", "-"], b"1 2 3 4 5");
    assert_refused(&short, "refused 7 0");
    let told = "gomzhiva: refused 7 0: a budget for each frame is expected, found 5 budgets for 6 frames\n";
    assert_eq!(short.err, told);
    let words = folder.run_with(&["grade", "-"], &day_words());
    let expected = "standard input: a text in UTF-8 is expected, found a byte 0\n";
    assert_eq!((words.status, words.err.as_str()), (Some(2), expected));
    folder.write("kind", [9, 0, 0, 0, 1, 0, 0, 0x40]);
    folder.write("torn", &day_words()[..day_words().len() - 1]);
    folder.write(
        "long",
        [0xff; MAX_FILE_BYTES].iter().chain(&[0]).copied().collect::<Vec<u8>>(),
    );
    for (file, line) in [
        ("kind", "refused 8 1"),
        ("torn", "refused 8 9"),
        ("long", "refused 2 0"),
    ] {
        let plan = folder.run(&["plan", file]);
        assert_refused(&plan, line);
        let more = format!("; {file} has a byte 0 and so is no text (a spreadsheet is read as CSV in UTF-8)\n");
        assert!(plan.err.ends_with(&more), "{}", plan.err);
        assert_refused(&folder.run(&["plan", "--listing", file]), line);
        assert_refused(&folder.run(&["needed", file]), line);
        assert_refused(&folder.run_with(&["trace", file, "-"], b"1"), line);
        assert_refused(&folder.run(&["words", file, "out"]), line);
        assert_refused(&folder.run(&["text", file, "out"]), line);
        assert_refused_silently(&folder.run(&["text", file]), line);
        assert_refused(&folder.run(&["shift", "start", file, "--journal", "journal"]), line);
    }
    assert_eq!(
        folder.names(),
        ["day.csv", "day.txt", "day.words", "kind", "long", "torn"]
    );
}

#[test]
fn texts_that_are_no_request_name_their_place() {
    let folder = Folder::new();
    folder.write("day.txt", "capacity 5\nstart 2\nend x\n");
    let expected = "day.txt:3:5: a whole number up to 4294967295 is expected, found 'x'\n";
    for arguments in [
        &["plan", "day.txt"][..],
        &["plan", "--listing", "day.txt"],
        &["plan", "--csv", "day.txt"],
        &["needed", "day.txt"],
        &["trace", "day.txt", "-"],
        &["grade", "day.txt"],
        &["words", "day.txt", "out"],
        &["text", "day.txt", "out"],
        &["shift", "start", "day.txt", "--journal", "out"],
    ] {
        let ran = folder.run(arguments);
        assert_eq!((ran.status, ran.text().as_str()), (Some(2), ""), "{arguments:?}");
        assert_eq!(ran.err, expected, "{arguments:?}");
    }
    assert_eq!(folder.names(), ["day.txt"]);
    let large = folder.run_with(&["plan", "-"], &b"# ".repeat(1 << 20));
    assert_eq!(large.status, Some(2));
    assert_eq!(
        large.err,
        "standard input: a text of at most 1048576 bytes is expected, found more\n"
    );
    let open = folder.run_with(&["plan", "-", "--start", "2"], b"harvest\n6\n");
    assert_eq!(open.status, Some(2));
    assert_eq!(
        open.err,
        "standard input:1:1: capacity, end (as lines before the table, or as options such as --capacity 5) is expected, found 'harvest'\n"
    );
}

#[test]
fn bad_usage_is_told_on_standard_error() {
    let folder = folder_of_each_form();
    for arguments in [
        &[][..],
        &["plane"],
        &["plan"],
        &["plan", "day.txt", "--size", "5"],
        &["plan", "day.txt", "--capacity", "-1"],
        &["plan", "day.txt", "--capacity", "4294967296"],
        &["plan", "day.txt", "--capacity", "+5"],
        &["plan", "day.txt", "--capacity", ""],
        &["plan", "day.txt", "--listing", "--csv"],
        &["plan", "day.txt", "--listing", "--chart", "x.svg"],
        &["plan", "day.txt", "--listing", "--without-leasts"],
        &["trace", "day.txt"],
        &["trace", "-", "-"],
        &["trace", "/dev/stdin", "-"],
        &["plan", "day.txt", "--csv", "--chart", "-"],
        &["trace", "day.txt", "day.csv", "--csv", "--chart", "-"],
        &["shift"],
        &["shift", "start", "day.txt"],
        &["shift", "record", "1", "--journal", "journal"],
        &["shift", "record", "1", "x", "--journal", "journal"],
        &["shift", "record", "1", "-1", "--journal", "journal"],
        &["shift", "start", "day.txt", "--journal", "-"],
        &["shift", "show", "--journal", "-"],
        &["shift", "plan", "--journal", "-", "--without-leasts"],
        &["shift", "show", "--journal", "journal", "--without-leasts"],
        &["needed", "day.txt", "--without-leasts"],
    ] {
        let ran = folder.run(arguments);
        assert_eq!((ran.status, ran.text().as_str()), (Some(2), ""), "{arguments:?}");
        assert!(!ran.err.is_empty(), "{arguments:?}");
    }
    assert_eq!(folder.names(), ["day.csv", "day.txt", "day.words"]);
}

#[test]
fn an_output_is_none_of_the_inputs() {
    let folder = folder_of_each_form();
    folder.write("budgets", "4 3 3 2 4 4");
    fs::hard_link(folder.file("day.txt"), folder.file("link.txt")).expect("a link");
    let outputs: [(&[&str], &str); 6] = [
        (&["words", "day.txt", "day.txt"], "day.txt"),
        (&["words", "day.txt", "link.txt"], "link.txt"),
        (&["text", "day.words", "day.words"], "day.words"),
        (&["plan", "day.txt", "--chart", "./day.txt"], "./day.txt"),
        (&["trace", "day.txt", "budgets", "--chart", "budgets"], "budgets"),
        (&["trace", "day.txt", "budgets", "--chart", "day.txt"], "day.txt"),
    ];
    for (arguments, output) in outputs {
        let ran = folder.run(arguments);
        assert_eq!((ran.status, ran.err), (Some(2), not_an_output(output)), "{arguments:?}");
    }
    // By whatever name: the input of a pipe, or what standard output is connected to.
    for (command, output) in [
        ("words - day.txt <day.txt", "day.txt"),
        ("trace day.txt - --chart budgets <budgets", "budgets"),
        ("plan day.txt --chart log >>log", "log"),
    ] {
        let ran = folder.shell(&format!("gomzhiva {command}"));
        assert_eq!((ran.status, ran.err), (Some(2), not_an_output(output)), "{command}");
    }
    for command in [
        "text day.txt",
        "plan day.txt --csv",
        "needed - <day.txt",
        "trace day.words day.txt",
    ] {
        let ran = folder.shell(&format!("gomzhiva {command} >>day.txt"));
        assert_eq!(ran.status, Some(2), "{command}");
        assert!(
            ran.err.ends_with(": an input that is no output is expected\n"),
            "{}",
            ran.err
        );
    }
    let kept = ["day.txt", "day.words", "budgets", "log"].map(|name| folder.read(name));
    assert_eq!(kept, [DAY.into(), day_words(), b"4 3 3 2 4 4".to_vec(), Vec::new()]);
}

fn not_an_output(name: &str) -> String {
    format!("gomzhiva: {name}: an output that is neither an input nor another output is expected; nothing is written\n")
}

#[test]
fn budgets_that_are_not_feasible_are_told_so_in_every_form() {
    let folder = folder_of_each_form();
    let trace = |more: &[&str]| folder.run_with(&[&["trace", "day.txt", "-"], more].concat(), b"4 4 4 4 2 2");
    let warning = "gomzhiva: Not feasible: the charge after frame 4 is below zero.\n";
    for more in [&["--csv"][..], &["--chart", "-"], &["--csv", "--chart", "out.svg"]] {
        let ran = trace(more);
        assert_eq!((ran.status, ran.err.as_str()), (Some(0), warning), "{more:?}");
    }
    assert!(trace(&["--chart", "-"])
        .text()
        .contains("standard input traced with day.txt: not feasible"));
}

#[test]
fn every_command_has_help_with_an_example() {
    let folder = Folder::new();
    let commands = folder.commands("");
    assert_eq!(commands.len(), 15, "{commands:?}");
    for command in commands {
        let text = folder.help(&command);
        let example = text.split("Example").nth(1).unwrap_or_default();
        let named = format!("gomzhiva {command}");
        assert!(example.contains(named.trim_end()), "{command}: {text}");
    }
    assert_done(
        &folder.run(&["--version"]),
        &format!("gomzhiva {}\n", env!("CARGO_PKG_VERSION")),
    );
}

#[test]
fn pictures_are_drawn_into_files_and_on_standard_output() {
    let folder = folder_of_each_form();
    let whole = |svg: &[u8]| svg.starts_with(b"<svg ") && svg.ends_with(b"</svg>\n");
    let plan = folder.run(&["plan", "day.txt", "--chart", "plan.svg"]);
    assert_eq!(plan.status, Some(0));
    assert!(plan.text().starts_with(TABLE) && whole(&folder.read("plan.svg")));
    assert_done(&folder.run(&["plan", "day.txt", "--csv", "--chart", "plan.svg"]), CSV);
    let picture = folder.run(&["plan", "day.txt", "--chart", "-"]);
    assert_eq!((picture.status, &picture.out), (Some(0), &folder.read("plan.svg")));
    let text = picture.text();
    for name in [
        "Plan of day.txt",
        "capacity 5 Wh",
        "needed capacity 6 Wh",
        "20 Wh in all",
    ] {
        assert!(text.contains(name), "{name}");
    }
    folder.write("bounded.txt", BOUNDED);
    let bounded = folder.run(&["plan", "bounded.txt", "--chart", "-"]).text();
    for name in ["least budget (in 1 frame)", "most budget (in 1 frame)"] {
        assert!(bounded.contains(name) && !text.contains(name), "{name}");
    }
    for (budgets, name) in [
        ("4 4 4 4 2 2", "overdrawn"),
        ("0 0 0 0 0 0", "of it lost to a full battery (17 Wh in all)"),
    ] {
        let arguments = ["trace", "day.txt", "-", "--chart", "trace.svg"];
        assert_eq!(folder.run_with(&arguments, budgets.as_bytes()).status, Some(0));
        assert!(whole(&folder.read("trace.svg")));
        assert!(String::from_utf8(folder.read("trace.svg")).unwrap().contains(name));
    }
}

/// Any request of up to 40 frames, the refused ones among them.
fn any_request() -> impl Strategy<Value = (Figures, Lists)> {
    let harvest = prop_oneof![60 => 0..20u32, 1 => MAX_HARVEST..MAX_HARVEST + 2];
    let least = prop_oneof![60 => Just(0), 30 => 1..14u32, 1 => MAX_BOUND..MAX_BOUND + 2];
    let most = prop_oneof![60 => Just(NO_UPPER_END), 60 => 12..20u32, 1 => MAX_BOUND..MAX_BOUND + 2];
    let frames = prop::collection::vec((harvest, least, most), 0..40);
    let kept = (any::<bool>(), any::<bool>());
    (0..60u32, 0..40u32, 0..40u32, frames, kept).prop_map(|(capacity, start, end, frames, (leasts, mosts))| {
        let mut lists = Lists::unbounded(frames.iter().map(|frame| frame.0).collect());
        if leasts {
            lists.least = frames.iter().map(|frame| frame.1).collect();
        }
        if mosts {
            lists.most = frames.iter().map(|frame| frame.2).collect();
        }
        (Figures { capacity, start, end }, lists)
    })
}

/// The program shows what the independent implementation says, refusals with P included.
#[test]
fn commands_show_the_reference() {
    let (bounded_plans, refusals) = (Cell::new(0), RefCell::new(BTreeSet::new()));
    check(200, (any_request(), 0..5u32), |((figures, lists), change)| {
        let folder = Folder::new();
        folder.write("request", bounded_text(figures, lists.frames()));
        let (harvest, frames) = (&lists.harvest, lists.count());
        let lines = |said: Result<String, energy::Refusal>| said.unwrap_or_else(|refusal| refusal.line() + "\n");

        let mut budgets = vec![0; frames];
        let planned = Reference.plan(figures, lists.frames(), &mut budgets);
        let plan = folder.run(&["plan", "--csv", "request"]);
        match planned {
            Ok(()) => {
                let is_bounded = lists != Lists::unbounded(harvest.clone());
                bounded_plans.set(bounded_plans.get() + u32::from(is_bounded));
                prop_assert_eq!(plan.text(), budget_table(0, figures, lists.frames(), &budgets));
                let needed = Reference.needed(figures, lists.frames());
                let serves = format!("apacity of {} Wh would serve every curve", needed.unwrap());
                prop_assert!(folder.run(&["plan", "request"]).text().contains(&serves), "{}", serves);
            }
            Err(refusal) => {
                refusals.borrow_mut().insert(refusal.number());
                prop_assert_eq!(plan.status, Some(1));
                prop_assert!(
                    plan.err.starts_with(&format!("gomzhiva: {}: ", refusal.line())),
                    "{}",
                    plan.err
                );
            }
        }

        let mut room = vec![0; MAX_FILE_BYTES];
        let written = Reference.write(figures, lists.frames(), &mut room);
        let words = folder.run(&["words", "request"]);
        prop_assert_eq!(words.status, Some(i32::from(written.is_err())));
        if let Ok(length) = written {
            prop_assert_eq!(&words.out, &room[..length]);
            let mut text = vec![0; LISTING_BYTES];
            let bytes = Reference.listing(&room[..length], &mut text);
            prop_assert_eq!(&folder.run(&["plan", "--listing", "request"]).out, &text[..bytes]);
        }

        let needed = Reference.needed(figures, lists.frames());
        let shown = lines(needed.map(|needed| format!("needed capacity {needed} Wh\n")));
        prop_assert_eq!(folder.run(&["needed", "request"]).text(), shown);

        // A plan with one budget changed is often no longer feasible, or loses.
        if let Some(first) = budgets.first_mut() {
            *first = (*first + change).saturating_sub(2);
        }
        folder.write("budgets", format!("budget\n{}", common::column(&budgets)));
        let traced = Reference.trace(figures, harvest, &budgets, &mut vec![0; frames], &mut vec![0; frames]);
        let trace = folder.run(&["trace", "--csv", "request", "budgets"]);
        prop_assert_eq!(trace.status, Some(i32::from(traced.is_err())));
        if let Ok(verdict) = traced {
            prop_assert_eq!(trace.text(), budget_table(0, figures, lists.frames(), &budgets));
            let words = folder.run(&["trace", "request", "budgets"]).text();
            prop_assert_eq!(words.contains("\nFeasible"), verdict == energy::Verdict::Feasible);
            let within = |i: usize| (lists.least[i]..=lists.most[i]).contains(&budgets[i]);
            prop_assert_eq!(words.contains("\nNot within the bounds in "), !(0..frames).all(within));
        }

        let worth = Reference
            .grade(&budgets)
            .map(|[a, b, c]| format!("worth {a} {b} {c} by house curves 0, 1 and 2\n"));
        prop_assert_eq!(folder.run(&["grade", "budgets"]).text(), lines(worth));
        Ok(())
    });
    assert!(bounded_plans.get() > 10, "few plans have bounds");
    assert!(
        [10, 11].iter().all(|number| refusals.borrow().contains(number)),
        "{refusals:?}"
    );
}
