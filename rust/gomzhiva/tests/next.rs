//! What a shift says of its next frame: its budget after each call, doubts about what was recorded, and the picture that
//! `shift plan` draws of it.

mod common;

use common::{request_text, Folder, Ran, DAY};
use std::fs;
use std::process::Stdio;

const PLAN: [&str; 4] = ["shift", "plan", "--journal", "journal"];
const CHART: [&str; 4] = ["shift", "chart", "--journal", "journal"];

/// A shift that was started from a request.
fn folder_of(request: &str) -> Folder {
    let folder = Folder::new();
    assert_eq!(start(&folder, request).status, Some(0));
    folder
}

fn start(folder: &Folder, request: &str) -> Ran {
    folder.run_with(&["shift", "start", "-", "--journal", "journal"], request.as_bytes())
}

fn record(folder: &Folder, harvest: u32, used: u32) -> Ran {
    let [harvest, used] = [harvest, used].map(|number| number.to_string());
    folder.run(&["shift", "record", &harvest, &used, "--journal", "journal"])
}

fn told(ran: &Ran) -> (Option<i32>, String, &str) {
    (ran.status, ran.text(), &ran.err)
}

/// What an answer says behind how the shift stands.
fn next(ran: &Ran) -> String {
    assert_eq!(ran.status, Some(0), "{}", ran.err);
    let text = ran.text();
    let (standing, next) = text.split_once('\n').expect("a line");
    assert!(standing.contains(" recorded; charge "), "{text}");
    next.to_string()
}

/// The lines of a journal.
fn lines(folder: &Folder) -> Vec<String> {
    let text = String::from_utf8(folder.read("journal")).expect("a journal is text");
    text.lines().map(String::from).collect()
}

#[test]
fn each_call_tells_the_next_budget_until_every_frame_is_recorded() {
    let folder = Folder::new();
    let zero = "0 Wh harvested, 0 Wh used, 0 Wh lost.";
    let started = format!(
        "Started. 0 of 6 frames recorded; charge 2 Wh of a capacity of 5 Wh; {zero}\nNext: a budget of 4 Wh for frame 1.\n"
    );
    assert_eq!(told(&start(&folder, DAY)), (Some(0), started, ""));
    let recorded = "Recorded frame 1. 1 of 6 frames recorded; charge 0 Wh of a capacity of 5 Wh; \
                    1 Wh harvested, 3 Wh used, 0 Wh lost.\nNext: a budget of 2 Wh for frame 2.\n";
    assert_eq!(told(&record(&folder, 1, 3)), (Some(0), recorded.to_string(), ""));
    for (harvest, used, budget, frame) in [(14, 2, 3, 3), (0, 3, 2, 4), (0, 2, 4, 5), (5, 4, 4, 6)] {
        let expected = format!("Next: a budget of {budget} Wh for frame {frame}.\n");
        assert_eq!(next(&record(&folder, harvest, used)), expected);
        // It is the first budget of the plan of the rest.
        let table = folder.run(&[&PLAN[..], &["--csv"]].concat()).text();
        let row = table.lines().nth(1).expect("a frame");
        assert!(row.starts_with(&format!("{frame},")), "{table}");
        assert_eq!(row.split(',').nth(2), Some(budget.to_string().as_str()), "{table}");
    }
    let last = "Recorded frame 6. 6 of 6 frames recorded; charge 2 Wh of a capacity of 5 Wh; \
                25 Wh harvested, 18 Wh used, 7 Wh lost. Finished: the charge ends at 2 Wh, and 2 Wh were asked for.\n";
    assert_eq!(told(&record(&folder, 5, 4)), (Some(0), last.to_string(), ""));
}

#[test]
fn the_next_budget_of_a_short_rest_says_how_it_is_short() {
    // With nothing used the end charge is missed, whatever comes as it was forecast.
    let folder = folder_of(&request_text(9, 3, 8, &[4, 1, 0]));
    let short = |frame: u32, missing: u32| {
        format!("Next: a budget of 0 Wh for frame {frame}; the rest is short by {missing} Wh.\n")
    };
    assert_eq!(next(&record(&folder, 2, 0)), short(2, 2));
    assert_eq!(next(&record(&folder, 0, 1)), short(3, 4));
    let last = record(&folder, 0, 0);
    let finished = " Finished: the charge ends at 4 Wh, below the end charge of 8 Wh.\n";
    assert!(last.text().ends_with(finished), "{}", last.text());
    assert_eq!((next(&last).as_str(), last.err.as_str()), ("", ""));
    // A least is out of reach, and then it is no more.
    let folder = folder_of("capacity 5\nstart 2\nend 2\nharvest least\n6 -\n0 3\n5 -\n");
    let nothing = "; the rest is short: nothing within its bounds is feasible";
    let expected = format!("Next: a budget of 0 Wh for frame 2{nothing}.\n");
    assert_eq!(next(&record(&folder, 0, 0)), expected);
    assert_eq!(next(&record(&folder, 2, 3)), "Next: a budget of 4 Wh for frame 3.\n");
}

#[test]
fn a_shift_of_one_frame_has_a_next_one_at_its_start_alone() {
    let folder = Folder::new();
    let started = start(&folder, &request_text(5, 2, 1, &[1]));
    assert_eq!(next(&started), "Next: a budget of 2 Wh for frame 1.\n");
    assert_eq!(next(&record(&folder, 1, 2)), "");
}

/// Frame 1 has the least 3 and the most 6; the plan gives it 4 Wh.
const BOUNDED: &str = "capacity 20\nstart 12\nend 0\nharvest least most\n0 3 6\n0 - -\n0 - -\n";

/// What standard error says of a use as frame 1 of a request, which is recorded and answered as any other is.
fn doubt(request: &str, used: u32) -> String {
    let folder = folder_of(request);
    let ran = record(&folder, 0, used);
    assert!(ran.text().starts_with("Recorded frame 1. 1 of "), "{}", ran.text());
    assert!(next(&ran).starts_with("Next: a budget of "), "{}", ran.text());
    let lines = lines(&folder);
    assert_eq!(lines.len(), 2);
    assert!(lines[1].starts_with(&format!("record 0 {used} *")), "{lines:?}");
    ran.err
}

fn doubted(used: u32, beyond: &str) -> String {
    format!("gomzhiva: the use of {used} Wh is {beyond} of frame 1; it is recorded all the same\n")
}

#[test]
fn a_use_beyond_its_bounds_is_doubted_and_recorded() {
    for (used, beyond) in [
        (0, "below the least of 3 Wh"),
        (2, "below the least of 3 Wh"),
        (7, "above the most of 6 Wh"),
        // More than twice the budget too: one sentence is told, the bound's.
        (9, "above the most of 6 Wh"),
    ] {
        assert_eq!(doubt(BOUNDED, used), doubted(used, beyond));
    }
    for used in 3..=6 {
        assert_eq!(doubt(BOUNDED, used), "");
    }
    // A most of 0 is one, and a least of 0 is none.
    let shut = "capacity 20\nstart 9\nend 0\nharvest least most\n0 0 0\n0 - -\n";
    assert_eq!(doubt(shut, 1), doubted(1, "above the most of 0 Wh"));
    assert_eq!(doubt(shut, 0), "");
}

#[test]
fn a_use_far_above_its_budget_is_doubted_and_recorded() {
    let open = request_text(20, 10, 0, &[0, 0]);
    for used in [0, 1, 6, 10] {
        assert_eq!(doubt(&open, used), "", "the budget is 5 Wh, of which twice is 10 Wh");
    }
    let closed = request_text(20, 9, 2, &[0, 0]);
    assert_eq!(doubt(&closed, 8), "");
    assert_eq!(doubt(&closed, 9), doubted(9, "more than twice the budget of 4 Wh"));
    // Twice a budget of nothing is nothing.
    let dark = request_text(20, 4, 4, &[0, 0, 0]);
    assert_eq!(doubt(&dark, 0), "");
    assert_eq!(doubt(&dark, 1), doubted(1, "more than twice the budget of 0 Wh"));
    // Between a least and a most that are far apart the budget counts.
    let wide = "capacity 99\nstart 60\nend 0\nharvest least most\n0 1 50\n0 - -\n0 - -\n";
    assert_eq!(doubt(wide, 40), "");
    assert_eq!(doubt(wide, 41), doubted(41, "more than twice the budget of 20 Wh"));
    assert_eq!(doubt(wide, 51), doubted(51, "above the most of 50 Wh"));
}

#[test]
fn a_short_rest_has_no_budget_to_doubt_a_use_by() {
    let folder = folder_of("capacity 9\nstart 3\nend 8\nharvest least most\n5 - -\n1 1 2\n1 - -\n1 - -\n");
    assert_eq!(record(&folder, 0, 0).err, "");
    assert!(next(&record(&folder, 0, 1)).contains("; the rest is short by "));
    assert_eq!(record(&folder, 0, 2).err, "", "twice nothing is less");
    // Its bounds are those of any rest.
    let folder = folder_of("capacity 9\nstart 3\nend 8\nharvest least most\n5 - -\n1 1 2\n");
    assert_eq!(record(&folder, 0, 0).err, "");
    let above = "gomzhiva: the use of 3 Wh is above the most of 2 Wh of frame 2; it is recorded all the same\n";
    let last = record(&folder, 0, 3);
    assert_eq!((last.status, last.err.as_str()), (Some(0), above));
    assert!(last.text().contains(" Finished: "), "{}", last.text());
}

#[test]
fn what_is_not_recorded_is_not_doubted() {
    let folder = folder_of(BOUNDED);
    let before = lines(&folder);
    let harvest = "the harvest of frame 1 is 400001 Wh, above the limit of 400000 Wh";
    for (harvest, used, refused) in [
        ("1", "99", "refused 21 86: the use is 86 Wh above charge and harvest"),
        ("400001", "0", &format!("refused 6 1: {harvest}")),
    ] {
        let ran = folder.run(&["shift", "record", harvest, used, "--journal", "journal"]);
        assert_eq!((ran.status, ran.err), (Some(1), format!("gomzhiva: {refused}\n")));
        let line = refused.split(':').next().map(|line| format!("{line}\n"));
        assert_eq!(Some(ran.out), line.map(String::into_bytes), "no next frame either");
    }
    let wrong = folder.run(&["shift", "record", "0", "7", "--frame", "2", "--journal", "journal"]);
    let message = "gomzhiva: --frame 2: the next frame is 1; nothing is recorded\n";
    assert_eq!(told(&wrong), (Some(2), String::new(), message));
    assert_eq!(lines(&folder), before);
    let right = folder.run(&["shift", "record", "0", "7", "--frame", "1", "--journal", "journal"]);
    assert_eq!(
        (right.status, right.err),
        (Some(0), doubted(7, "above the most of 6 Wh"))
    );
    for _ in 0..2 {
        assert_eq!(record(&folder, 0, 0).err, "");
    }
    let done = record(&folder, 0, 7);
    let refused = "gomzhiva: refused 20 0: every frame is recorded already\n";
    assert_eq!(told(&done), (Some(1), "refused 20 0\n".to_string(), refused));
}

#[test]
fn a_doubt_that_cannot_be_told_changes_nothing() {
    let folder = folder_of(BOUNDED);
    let ran = folder.shell("gomzhiva shift record 0 7 --journal journal 2>&-");
    assert_eq!(
        (ran.status, next(&ran).as_str()),
        (Some(0), "Next: a budget of 3 Wh for frame 2.\n")
    );
    assert_eq!(lines(&folder).len(), 2);
    // Where the answer cannot be printed, the doubt is told, and that the frame is recorded.
    let folder = folder_of(BOUNDED);
    let ran = folder.shell("gomzhiva shift record 0 7 --journal journal >/dev/full");
    let failed = "gomzhiva: standard output: No space left on device; recorded frame 1 all the same\n";
    let expected = format!("{}{failed}", doubted(7, "above the most of 6 Wh"));
    assert_eq!((ran.status, ran.err), (Some(3), expected));
    assert_eq!(lines(&folder).len(), 2);
}

#[test]
fn a_torn_line_is_told_before_a_doubt() {
    let folder = folder_of(BOUNDED);
    let whole = folder.read("journal");
    folder.write("journal", [&whole[..], b"record 0 7"].concat());
    let ran = record(&folder, 0, 2);
    let notice = "journal:2:1: left out a torn last line: its recording was never answered\n";
    let expected = format!("{notice}{}", doubted(2, "below the least of 3 Wh"));
    assert_eq!((ran.status, ran.err), (Some(0), expected));
}

#[test]
fn a_plan_draws_the_picture_of_its_shift() {
    for (request, recorded) in [
        (DAY, &[][..]),
        (DAY, &[(1, 3), (14, 2)][..]),
        (BOUNDED, &[(0, 7)]),
        (&request_text(9, 3, 8, &[4, 1]), &[(2, 0)]),
        ("capacity 5\nstart 2\nend 2\nharvest least\n6 -\n0 3\n5 -\n", &[(0, 0)]),
    ] {
        let folder = folder_of(request);
        for &(harvest, used) in recorded {
            assert_eq!(record(&folder, harvest, used).status, Some(0));
        }
        let journal = folder.read("journal");
        let picture = folder.run(&CHART);
        assert_eq!(picture.status, Some(0));
        let [table, csv] = [&[][..], &["--csv"]].map(|more| folder.run(&[&PLAN[..], more].concat()));
        // Beside the table, beside the table for a spreadsheet, and alone on standard output.
        let with_table = folder.run(&[&PLAN[..], &["--chart", "plan.svg"]].concat());
        assert_eq!((&with_table, &folder.read("plan.svg")), (&table, &picture.out));
        fs::remove_file(folder.file("plan.svg")).expect("a file");
        let with_csv = folder.run(&[&PLAN[..], &["--csv", "--chart", "plan.svg"]].concat());
        assert_eq!((&with_csv, &folder.read("plan.svg")), (&csv, &picture.out));
        let alone = folder.run(&[&PLAN[..], &["--chart", "-"]].concat());
        assert_eq!(
            (alone.status, &alone.out, &alone.err),
            (Some(0), &picture.out, &csv.err)
        );
        assert_eq!(csv.err.is_empty(), !table.text().contains("Short: "), "{}", csv.err);
        assert_eq!(folder.read("journal"), journal);
        assert_eq!(folder.names(), ["journal", "plan.svg"]);
    }
}

#[test]
fn a_plan_without_a_rest_or_a_place_draws_no_picture() {
    let folder = folder_of(&request_text(5, 2, 1, &[1]));
    let both = folder.run(&[&PLAN[..], &["--csv", "--chart", "-"]].concat());
    let message = "gomzhiva: --csv and --chart - cannot both be standard output\n";
    assert_eq!(told(&both), (Some(2), String::new(), message));
    assert_eq!(record(&folder, 1, 2).status, Some(0));
    let refused = "gomzhiva: refused 20 0: every frame is recorded already\n";
    for (more, out) in [
        (&["--chart", "plan.svg"][..], "refused 20 0\n"),
        (&["--csv", "--chart", "plan.svg"], ""),
        (&["--chart", "-"], ""),
    ] {
        let ran = folder.run(&[&PLAN[..], more].concat());
        assert_eq!(told(&ran), (Some(1), out.to_string(), refused));
        assert_eq!(folder.names(), ["journal"]);
    }
}

#[test]
fn the_picture_of_a_plan_takes_no_journals_place() {
    let folder = folder_of(DAY);
    folder.run_with(&["shift", "start", "-", "--journal", "other"], DAY.as_bytes());
    fs::hard_link(folder.file("journal"), folder.file("link")).expect("a link");
    let journals = || ["journal", "other", "link"].map(|name| folder.read(name));
    let before = journals();
    let torn = [&before[0][..], b"rec"].concat();
    for command in [
        "shift plan --journal journal --chart journal",
        "shift plan --journal journal --chart ./journal",
        "shift plan --journal journal --chart link",
        "shift plan --journal journal --chart other",
        "shift plan --journal journal --csv --chart other",
        "shift plan --without-leasts --journal journal --chart other",
        "shift plan --journal journal --chart - >>other",
        "shift plan --journal journal --chart /dev/stdout >>journal",
    ] {
        let ran = folder.shell(&format!("gomzhiva {command}"));
        assert_eq!((ran.status, ran.text().as_str()), (Some(2), ""), "{command}");
        assert!(
            ran.err.ends_with(" is expected; nothing is written\n"),
            "{command}: {}",
            ran.err
        );
        assert_eq!(journals(), before, "{command}");
    }
    // Nor that of a journal whose last line is torn.
    folder.write("other", &torn);
    assert_eq!(folder.run(&[&PLAN[..], &["--chart", "other"]].concat()).status, Some(2));
    assert_eq!(folder.read("other"), torn);
}

#[test]
fn a_picture_that_cannot_be_written_leaves_no_table() {
    let folder = folder_of(DAY);
    for (place, reason) in [("none/plan.svg", "No such file or directory"), (".", "Is a directory")] {
        let mut command = folder.command(&[&PLAN[..], &["--chart", place]].concat());
        let ran = Ran::from(command.stdin(Stdio::null()).output().expect("the program ends"));
        let message = format!("gomzhiva: {place}: {reason}\n");
        assert_eq!(told(&ran), (Some(3), String::new(), message.as_str()));
    }
    assert_eq!(folder.names(), ["journal"]);
}
