//! CSV that stays: the columns of a request through its whole shift, in one order, and what one command prints another reads.

mod common;

use common::clock::{minutes, Date, Form, Tail};
use common::{bounded_text, check, column, Bounds, Folder};
use energy::{Energy, Figures, NO_UPPER_END};
use evidence::lists::Lists;
use evidence::reference::Reference;
use proptest::collection::vec;
use proptest::prelude::*;
use proptest::sample::select;
use std::ops::Range;

/// A request, and when its frames begin, as it is printed.
#[derive(Clone, Debug)]
struct Day {
    figures: Figures,
    lists: Lists,
    times: Option<Vec<String>>,
}

/// A named column of a table.
type Column = (String, Vec<String>);

/// The columns as CSV.
fn csv(columns: &[Column]) -> String {
    let names: Vec<&str> = columns.iter().map(|(name, _)| &name[..]).collect();
    let rows = columns[0].1.len();
    let row = |row: usize| columns.iter().map(|(_, cells)| &cells[row][..]).collect::<Vec<_>>();
    let lines = std::iter::once(names).chain((0..rows).map(row));
    lines.map(|cells| cells.join(",") + "\n").collect()
}

fn texts<N: ToString>(list: &[N]) -> Vec<String> {
    list.iter().map(N::to_string).collect()
}

impl Day {
    fn count(&self) -> usize {
        self.lists.count()
    }

    fn text(&self) -> String {
        let text = bounded_text(self.figures, self.lists.frames());
        let times = match &self.times {
            Some(times) => times.iter().map(|time| time.replace(' ', "T")),
            None => return text,
        };
        let mut cells = std::iter::once("time".to_string()).chain(times);
        let line = |line: &str| match line.split_once(' ') {
            Some((name, _)) if ["capacity", "start", "end"].contains(&name) => format!("{line}\n"),
            _ => format!("{} {line}\n", cells.next().expect("a time")),
        };
        text.lines().map(line).collect()
    }

    /// Some of its frames as a request of their own, from another start charge.
    fn part(&self, frames: Range<usize>, start: u32) -> Day {
        let Lists { harvest, least, most } = &self.lists;
        let [harvest, least, most] = [harvest, least, most].map(|list| list[frames.clone()].to_vec());
        Day {
            figures: Figures { start, ..self.figures },
            lists: Lists { harvest, least, most },
            times: self.times.as_ref().map(|times| times[frames].to_vec()),
        }
    }

    /// The columns of some frames, with those of the bounds that the whole request has.
    fn columns(&self, frames: Range<usize>, harvest: &[u32]) -> Vec<Column> {
        let numbers: Vec<usize> = frames.clone().map(|frame| frame + 1).collect();
        let mut columns = vec![("frame".to_string(), texts(&numbers))];
        if let Some(times) = &self.times {
            columns.push(("time".to_string(), times[frames.clone()].to_vec()));
        }
        columns.push(("harvest".to_string(), texts(harvest)));
        let bounds = Bounds::of(self.lists.frames());
        let cells: Vec<String> = frames.map(|frame| bounds.cells(frame, ",", "")).collect();
        for (i, name) in bounds.names(",").split(',').enumerate().skip(1) {
            let cell = |cells: &String| cells.split(',').nth(i).expect("a cell").to_string();
            columns.push((name.to_string(), cells.iter().map(cell).collect()));
        }
        columns
    }

    /// The columns of some frames with budgets, or use, and the reference's charges and losses from a start charge.
    fn table(&self, frames: Range<usize>, start: u32, harvest: &[u32], name: &str, budgets: &[u32]) -> String {
        let (mut charges, mut losses) = (vec![0; harvest.len()], vec![0; harvest.len()]);
        let figures = Figures { start, ..self.figures };
        let traced = Reference.trace(figures, harvest, budgets, &mut charges, &mut losses);
        traced.expect("budgets that can be traced");
        let mut columns = self.columns(frames, harvest);
        columns.extend([
            (name.to_string(), texts(budgets)),
            ("charge".to_string(), texts(&charges)),
            ("loss".to_string(), texts(&losses)),
        ]);
        csv(&columns)
    }

    /// The whole table of these budgets.
    fn table_of(&self, budgets: &[u32]) -> String {
        self.table(
            0..self.count(),
            self.figures.start,
            &self.lists.harvest,
            "budget",
            budgets,
        )
    }

    /// The reference's plan, if there is one.
    fn plan(&self) -> Option<Vec<u32>> {
        let mut budgets = vec![0; self.count()];
        let planned = Reference.plan(self.figures, self.lists.frames(), &mut budgets);
        planned.is_ok().then_some(budgets)
    }

    /// The figures as options.
    fn options(&self) -> String {
        let Figures { capacity, start, end } = self.figures;
        format!("--capacity {capacity} --start {start} --end {end}")
    }
}

/// Every command reads a printed table, once its figures are given, as this request, and its budgets as these.
fn assert_read_as(printed: &str, day: &Day, budgets: &[u32]) {
    let folder = Folder::new();
    folder.write("csv", printed);
    folder.write("bare", column(budgets));
    folder.write("text", day.text());
    let options = day.options();
    assert_eq!(folder.out(&format!("text csv {options}")), day.text(), "{printed}");
    for trace in ["trace csv csv --csv", "trace csv bare --csv", "trace text csv --csv"] {
        assert_eq!(
            folder.out(&format!("{trace} {options}")),
            day.table_of(budgets),
            "{trace} of {printed}"
        );
    }
    assert_eq!(folder.out("grade csv"), folder.out("grade bare"), "{printed}");
    for command in ["needed", "words", "plan --listing", "plan --csv"] {
        let of_csv = folder.line(&format!("{command} csv {options}"));
        let of_text = folder.line(&format!("{command} text"));
        assert_eq!(
            (of_csv.status, of_csv.out),
            (of_text.status, of_text.out),
            "{command} of {printed}"
        );
    }
    let started = folder
        .line(&format!("shift start csv --journal csv.journal {options}"))
        .status;
    assert_eq!(
        started,
        folder.line("shift start text --journal text.journal").status,
        "{printed}"
    );
    if started == Some(0) {
        assert_eq!(folder.read("csv.journal"), folder.read("text.journal"), "{printed}");
    }
}

/// Requests that have a plan, in most cases with bounds and times.
fn days() -> impl Strategy<Value = Day> {
    let least = prop_oneof![3 => Just(0), 1 => 0..4u32];
    let most = prop_oneof![3 => Just(None), 1 => (0..9u32).prop_map(Some)];
    let frames = vec((0..20u32, least, most), 2..9);
    let figures = (20..40u32, 10..20u32, 0..10u32);
    let dates = select(vec![Date::None, Date::Dashed]);
    let tails = select(vec![
        Tail::None,
        Tail::Offset("+02:00", "+02:00"),
        Tail::Offset("Z", "Z"),
    ]);
    let times = proptest::option::weighted(0.7, (minutes(), dates, tails));
    (figures, frames, any::<[bool; 2]>(), times).prop_map(|((capacity, start, end), frames, [leasts, mosts], times)| {
        let mut lists = Lists::unbounded(frames.iter().map(|frame| frame.0).collect());
        if leasts {
            lists.least = frames.iter().map(|frame| frame.1).collect();
        }
        if mosts {
            let most = |&(_, least, most): &(u32, u32, Option<u32>)| most.map_or(NO_UPPER_END, |most| most.max(least));
            lists.most = frames.iter().map(most).collect();
        }
        let times = times.map(|(first, date, tail)| {
            let form = Form {
                date,
                tail,
                ..Form::PLAIN
            };
            let each: Vec<_> = (0..lists.count() as i64).map(|i| first.later(15 * i)).collect();
            form.printed(&each, " ")
        });
        let figures = Figures { capacity, start, end };
        Day { figures, lists, times }
    })
}

#[test]
fn what_plan_and_trace_print_is_read_by_every_command() {
    check(60, (days(), vec(0..30u32, 9)), |(day, supplied)| {
        let budgets = day.plan();
        prop_assume!(budgets.is_some());
        let (budgets, supplied) = (budgets.unwrap_or_default(), &supplied[..day.count()]);
        let folder = Folder::new();
        folder.write("request", day.text());
        folder.write("supplied", column(supplied));
        prop_assert_eq!(folder.out("text request"), day.text());
        let planned = folder.out("plan --csv request");
        prop_assert_eq!(&planned, &day.table_of(&budgets));
        assert_read_as(&planned, &day, &budgets);
        let traced = folder.out("trace --csv request supplied");
        prop_assert_eq!(&traced, &day.table_of(supplied));
        assert_read_as(&traced, &day, supplied);
        Ok(())
    });
}

/// What was recorded of a shift: harvests and uses, and the charge after them.
fn recorded(day: &Day, count: usize, harvest: &[u32], used: &[u32]) -> (Vec<(u32, u32)>, u32) {
    let mut shift = Reference.shift_start(day.figures, day.lists.frames()).expect("a shift");
    let mut frames = Vec::new();
    for (&harvest, &used) in harvest.iter().zip(used).take(count) {
        let used = used.min(shift.now.charge);
        shift = Reference.shift_record(shift, harvest, used).expect("a recording");
        frames.push((harvest, used));
    }
    (frames, shift.now.charge)
}

#[test]
fn what_a_shift_prints_is_read_by_every_command() {
    let cases = (days(), vec(0..20u32, 9), vec(0..20u32, 9), any::<prop::sample::Index>());
    check(60, cases, |(day, harvest, used, done)| {
        prop_assume!(day.plan().is_some());
        let done = 1 + done.index(day.count() - 1);
        let (frames, charge) = recorded(&day, done, &harvest, &used);
        let folder = Folder::new();
        folder.write("request", day.text());
        folder.out("shift start request --journal journal");
        for (harvest, used) in &frames {
            folder.out(&format!("shift record {harvest} {used} --journal journal"));
        }
        let (harvest, used): (Vec<u32>, Vec<u32>) = frames.into_iter().unzip();
        let shown = folder.out("shift show --csv --journal journal");
        prop_assert_eq!(&shown, &day.table(0..done, day.figures.start, &harvest, "use", &used));
        let mut hindsight = day.part(0..done, day.figures.start);
        hindsight.lists.harvest = harvest;
        assert_read_as(&shown, &hindsight, &used);
        let rest = day.part(done..day.count(), charge);
        let budgets = rest.plan().unwrap_or_else(|| vec![0; rest.count()]);
        let planned = folder.out("shift plan --csv --journal journal");
        let table = day.table(done..day.count(), charge, &rest.lists.harvest, "budget", &budgets);
        prop_assert_eq!(&planned, &table);
        assert_read_as(&planned, &rest, &budgets);
        Ok(())
    });
}

/// A request of 6 frames with these bounds in these frames alone.
fn bounded_in(frames: &[usize], names: &[&str], times: bool) -> String {
    let mut text = "capacity 9\nstart 5\nend 2\n".to_string();
    let time = if times { "time " } else { "" };
    text += &format!(
        "{time}harvest{}\n",
        names.iter().map(|name| format!(" {name}")).collect::<String>()
    );
    for frame in 0..6 {
        let time = if times {
            format!("{:02}:{:02} ", frame / 4, frame % 4 * 15)
        } else {
            String::new()
        };
        let bound = |name: &&str| match *name {
            _ if !frames.contains(&frame) => " -",
            "least" => " 1",
            _ => " 2",
        };
        text += &format!("{time}3{}\n", names.iter().map(bound).collect::<String>());
    }
    text
}

/// The names of the first line of a table for people.
fn names_for_people(table: &str) -> String {
    let first = table.lines().next().expect("a line of names");
    first.split_whitespace().collect::<Vec<_>>().join(",")
}

#[test]
fn a_shift_keeps_its_columns_whatever_is_left() {
    let bounds = [&["least", "most"][..], &["least"], &["most"]];
    for (names, frames) in bounds
        .iter()
        .flat_map(|names| [[0], [2], [5]].map(|frames| (*names, frames)))
    {
        for times in [false, true] {
            let folder = Folder::new();
            folder.write("request", bounded_in(&frames, names, times));
            folder.out("shift start request --journal journal");
            let head = if times { "frame,time,harvest" } else { "frame,harvest" };
            let head = [&[head][..], names].concat().join(",");
            for recorded in 0..=6 {
                let show = "shift show --journal journal";
                assert_columns(&folder, show, &format!("{head},use,charge,loss"), recorded);
                if recorded < 6 {
                    for plan in [
                        "shift plan --journal journal",
                        "shift plan --without-leasts --journal journal",
                    ] {
                        assert_columns(&folder, plan, &format!("{head},budget,charge,loss"), 6 - recorded);
                    }
                    folder.out("shift record 3 2 --journal journal");
                }
            }
        }
    }
}

/// A table has these columns and so many rows, for spreadsheets and for people.
fn assert_columns(folder: &Folder, command: &str, names: &str, rows: usize) {
    let csv = folder.out(&format!("{command} --csv"));
    let table = folder.out(command);
    assert_eq!(
        (csv.lines().next(), csv.lines().count()),
        (Some(names), rows + 1),
        "{command}"
    );
    assert!(
        csv.lines()
            .all(|line| line.matches(',').count() == names.matches(',').count()),
        "{csv}"
    );
    assert_eq!(names_for_people(&table), names, "{command}");
}

#[test]
fn a_shift_without_bounds_and_times_has_its_columns_as_before() {
    let folder = Folder::new();
    folder.write("request", bounded_in(&[], &[], false));
    folder.out("shift start request --journal journal");
    assert_columns(
        &folder,
        "shift show --journal journal",
        "frame,harvest,use,charge,loss",
        0,
    );
    assert_columns(
        &folder,
        "shift plan --journal journal",
        "frame,harvest,budget,charge,loss",
        6,
    );
}

#[test]
fn bounds_that_no_frame_has_are_no_columns() {
    let folder = Folder::new();
    folder.write("request", bounded_in(&[], &["least", "most"], true));
    assert_columns(&folder, "plan request", "frame,time,harvest,budget,charge,loss", 6);
    folder.out("shift start request --journal journal");
    assert_columns(
        &folder,
        "shift plan --journal journal",
        "frame,time,harvest,budget,charge,loss",
        6,
    );
}

#[test]
fn columns_have_one_order_whatever_the_requests_have() {
    let names = vec![
        "loss", "charge", "budget", "most", "least", "harvest", "time", "frame", "use",
    ];
    check(60, Just(names).prop_shuffle(), |names| {
        let row = |frame: usize| {
            let cell = |name: &&str| match *name {
                "frame" => format!("{}", frame + 7),
                "time" => format!("06:{:02}", frame * 15),
                "least" if frame == 0 => "1".to_string(),
                "most" if frame == 2 => "2".to_string(),
                "least" | "most" => String::new(),
                _ => "3".to_string(),
            };
            names.iter().map(cell).collect::<Vec<_>>().join(";")
        };
        let rows: Vec<String> = (0..4).map(row).collect();
        let folder = Folder::new();
        folder.write("request", format!("{}\n{}\n", names.join(";"), rows.join("\n")));
        let options = "--capacity 9 --start 5 --end 2";
        let printed = "frame,time,harvest,least,most,budget,charge,loss";
        assert_columns(&folder, &format!("plan request {options}"), printed, 4);
        assert_columns(&folder, &format!("plan request --without-leasts {options}"), printed, 4);
        assert_columns(&folder, &format!("trace request request {options}"), printed, 4);
        folder.out(&format!("shift start request --journal journal {options}"));
        assert_columns(&folder, "shift plan --journal journal", printed, 4);
        Ok(())
    });
}

#[test]
fn use_stands_for_budgets_where_there_are_none() {
    let folder = Folder::new();
    folder.write("request", "capacity 9\nstart 5\nend 2\nharvest\n3\n3\n");
    let graded = |table: &str| {
        folder.write("table", table);
        folder.line("grade table")
    };
    let worth = graded("1 2").text();
    assert_eq!(graded("use\n1\n2\n").text(), worth);
    assert_eq!(graded("use,budget\n7,1\n7,2\n").text(), worth, "budgets go before");
    assert_eq!(
        graded("use,budget\nx,1\n,2\n").text(),
        worth,
        "what is not read may be anything"
    );
    assert_eq!(
        graded("frame,time,harvest,use,charge,loss\n3,06:00,9,1,9,9\n4,06:15,9,2,9,9\n").text(),
        worth
    );
    for (table, told) in [
        (
            "use\n1\nx\n",
            "table:3:1: a whole number up to 4294967295 is expected, found 'x'\n",
        ),
        (
            "harvest,use\n1,\n1,2\n",
            "table:2:3: a whole number up to 4294967295 is expected, found nothing\n",
        ),
        (
            "harvest\n1\n2\n",
            "table:1:1: a table with the column 'budget', or else 'use', is expected, found 'harvest'\n",
        ),
    ] {
        let ran = graded(table);
        assert_eq!((ran.status, ran.text().as_str(), ran.err.as_str()), (Some(2), "", told));
    }
    // In a request nothing of it is read.
    folder.write("request", "harvest,use\n3,x\n3,\n");
    let text = folder.out("text request --capacity 9 --start 5 --end 2");
    assert_eq!(text, "capacity 9\nstart 5\nend 2\nharvest\n3\n3\n");
    folder.write("table", "use,loss\n1,1\n2,2\n");
    let traced = folder.out("trace --csv request table --capacity 9 --start 5 --end 2");
    assert_eq!(traced, "frame,harvest,budget,charge,loss\n1,3,1,7,0\n2,3,2,8,0\n");
}
