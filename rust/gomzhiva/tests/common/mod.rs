//! The built program, run as a person would run it, in a folder of its own.
#![allow(dead_code)] // each test file uses a part

pub mod clock;

use energy::{Energy, Figures, Frames, Rest, Shift, Totals, Verdict, NO_UPPER_END};
use evidence::lists::Lists;
use evidence::reference::logbook::Logbook;
use evidence::reference::Reference;
use proptest::prelude::*;
use proptest::test_runner::{RngAlgorithm, TestRng, TestRunner};
use std::fs::{self, Permissions};
use std::io::Write;
use std::os::unix::fs::{MetadataExt, PermissionsExt};
use std::os::unix::process::CommandExt;
use std::path::{Path, PathBuf};
use std::process::{Command, Output, Stdio};

/// The variable of a default journal, of which tests have none unless they say so.
pub const JOURNAL: &str = "GOMZHIVA_JOURNAL";

/// Document 01's request as text.
pub const DAY: &str = "capacity 5\nstart 2\nend 2\nharvest\n6\n4\n0\n0\n5\n5\n";

/// Its word file.
pub fn day_words() -> Vec<u8> {
    let words = [
        5,
        2,
        2,
        6 | 1 << 30,
        4 | 1 << 30,
        1 << 30,
        1 << 30,
        5 | 1 << 30,
        5 | 1 << 30,
        6 | 3 << 30,
    ];
    words.iter().flat_map(|word: &u32| word.to_le_bytes()).collect()
}

/// Every command that reads a request; of those with other files, `budgets` are as many as its frames.
pub const REQUEST_READERS: [&str; 10] = [
    "plan FILE",
    "plan --csv FILE",
    "plan --listing FILE",
    "plan FILE --chart out.svg",
    "plan --without-leasts FILE",
    "needed FILE",
    "words FILE out",
    "text FILE out",
    "trace FILE budgets",
    "shift start FILE --journal out",
];
/// Every command that reads budgets; `day.txt` is a request of as many frames.
pub const BUDGET_READERS: [&str; 2] = ["trace day.txt FILE", "grade FILE"];

/// Every command on a journal that is there, without its name.
pub const ON_JOURNAL: [&[&str]; 5] = [
    &["shift", "show"],
    &["shift", "show", "--csv"],
    &["shift", "plan"],
    &["shift", "chart"],
    &RECORD,
];
pub const RECORD: [&str; 4] = ["shift", "record", "0", "0"];

/// The arguments of a command on this journal.
pub fn on<'a>(command: &[&'a str], journal: &'a str) -> Vec<&'a str> {
    [command, &["--journal", journal]].concat()
}

/// A request without bounds as text, as `text` prints it.
pub fn request_text(capacity: u32, start: u32, end: u32, harvest: &[u32]) -> String {
    bounded_text(
        Figures { capacity, start, end },
        Lists::unbounded(harvest.to_vec()).frames(),
    )
}

/// A request as text, as `text` prints it.
pub fn bounded_text(figures: Figures, frames: Frames) -> String {
    let Figures { capacity, start, end } = figures;
    let bounds = Bounds::of(frames);
    let mut text = format!(
        "capacity {capacity}\nstart {start}\nend {end}\nharvest{}\n",
        bounds.names(" ")
    );
    for (frame, harvest) in frames.harvest.iter().enumerate() {
        text += &format!("{harvest}{}\n", bounds.cells(frame, " ", "-"));
    }
    text
}

/// The bounds that some frame has: the name of each, and the list with nothing where a frame does not have it.
pub struct Bounds(Vec<(&'static str, Vec<Option<u32>>)>);

impl Bounds {
    pub fn of(frames: Frames) -> Bounds {
        let given = |list: &[u32], none: u32| list.iter().map(|&n| (n != none).then_some(n)).collect();
        let bounds: [(_, Vec<_>); 2] = [
            ("least", given(frames.least, 0)),
            ("most", given(frames.most, NO_UPPER_END)),
        ];
        let some = |(_, list): &(_, Vec<Option<u32>>)| list.iter().any(Option::is_some);
        Bounds(bounds.into_iter().filter(some).collect())
    }

    /// The names, each behind a separator.
    pub fn names(&self, separator: &str) -> String {
        self.0.iter().map(|(name, _)| format!("{separator}{name}")).collect()
    }

    /// A frame's cells, each behind a separator.
    pub fn cells(&self, frame: usize, separator: &str, none: &str) -> String {
        let cell = |cell: Option<u32>| cell.map_or(none.to_string(), |number| number.to_string());
        let cells = self.0.iter().map(|(_, list)| cell(list[frame]));
        cells.map(|cell| format!("{separator}{cell}")).collect()
    }
}

/// A line for each number.
pub fn column(list: &[u32]) -> String {
    list.iter().map(|number| format!("{number}\n")).collect()
}

/// How a shift stands, in the words of its answers.
pub fn standing(shift: &Shift) -> String {
    let Shift { terms, now } = shift;
    let frames = if terms.frames == 1 { "frame" } else { "frames" };
    let finished = if now.recorded < terms.frames {
        String::new()
    } else if now.charge < terms.end {
        let below = format!("below the end charge of {} Wh", terms.end);
        format!(" Finished: the charge ends at {} Wh, {below}.", now.charge)
    } else {
        format!(
            " Finished: the charge ends at {} Wh, and {} Wh were asked for.",
            now.charge, terms.end
        )
    };
    let Totals { harvested, used, lost } = now.totals;
    format!(
        "{} of {} {frames} recorded; charge {} Wh of a capacity of {} Wh; {harvested} Wh harvested, {used} Wh used, {lost} Wh lost.{finished}\n",
        now.recorded, terms.frames, now.charge, terms.capacity
    )
}

/// What the logbook's shift says behind its standing: the budget of the next frame, and nothing at its end.
pub fn next(logbook: &Logbook, frames: Frames) -> String {
    let (mut budgets, next) = (vec![0; frames.harvest.len()], recorded(logbook));
    let short = match logbook.plan_rest(frames, &mut budgets) {
        Err(_) => return String::new(),
        Ok(Rest::Planned) => String::new(),
        Ok(Rest::Short { missing: 0 }) => "; the rest is short: nothing within its bounds is feasible".to_string(),
        Ok(Rest::Short { missing }) => format!("; the rest is short by {missing} Wh"),
    };
    format!(
        "Next: a budget of {} Wh for frame {}{short}.\n",
        budgets[next],
        next + 1
    )
}

/// What is told of a use that is recorded as the logbook's next frame: its bound before its budget, one sentence at most.
pub fn doubt(before: &Logbook, frames: Frames, used: u32) -> String {
    let (mut budgets, next) = (vec![0; frames.harvest.len()], recorded(before));
    let rest = before.plan_rest(frames, &mut budgets).expect("a frame is left");
    let (least, most, budget) = (frames.least[next], frames.most[next], budgets[next]);
    let beyond = if used < least {
        format!("below the least of {least} Wh")
    } else if used > most {
        format!("above the most of {most} Wh")
    } else if rest == Rest::Planned && u64::from(used) > 2 * u64::from(budget) {
        format!("more than twice the budget of {budget} Wh")
    } else {
        return String::new();
    };
    let frame = next + 1;
    format!("gomzhiva: the use of {used} Wh is {beyond} of frame {frame}; it is recorded all the same\n")
}

fn recorded(logbook: &Logbook) -> usize {
    logbook.record_now().now.recorded as usize
}

/// The figures of what is left of a shift.
pub fn figures_now(shift: &Shift) -> Figures {
    Figures {
        capacity: shift.terms.capacity,
        start: shift.now.charge,
        end: shift.terms.end,
    }
}

/// The sentence of a rest that is short: what the end charge misses, or that it is reached.
pub fn short(shift: &Shift, missing: u64) -> String {
    let left = match shift.terms.frames - shift.now.recorded {
        1 => "1 frame left".to_string(),
        several => format!("{several} frames left"),
    };
    let (end, zeros) = (
        format!("the end charge of {} Wh", shift.terms.end),
        "so every budget is 0",
    );
    match missing {
        0 => format!(
            "Short: nothing within the bounds of the {left} is feasible, {zeros}; with nothing used, {end} is reached.\n"
        ),
        _ => format!("Short: with nothing used in the {left}, {end} is still missed by {missing} Wh, {zeros}.\n"),
    }
}

/// How the leasts as budgets fail behind so many recorded frames: where they run the store dry, and else what they leave.
pub fn leasts_fail(before: usize, figures: Figures, frames: Frames) -> String {
    let (mut charges, mut losses) = (vec![0; frames.harvest.len()], vec![0; frames.harvest.len()]);
    let traced = Reference.trace(figures, frames.harvest, frames.least, &mut charges, &mut losses);
    assert_ne!(traced, Ok(Verdict::Feasible));
    match charges.iter().position(|&charge| charge < 0) {
        Some(frame) => {
            let (number, missing) = (before + frame + 1, -charges[frame]);
            format!("run the store dry in frame {number}, with {missing} Wh missing there")
        }
        None => format!(
            "leave {} Wh, and {} Wh were asked for",
            charges.last().expect("a frame"),
            figures.end
        ),
    }
}

/// The table of budgets behind so many recorded frames as CSV, with the bounds of all frames and the reference's charges and
/// losses; the figures' start charge is the one before the first of its frames.
pub fn budget_table(before: u32, figures: Figures, frames: Frames, budgets: &[u32]) -> String {
    let (first, bounds) = (before as usize, Bounds::of(frames));
    let (harvest, budgets) = (&frames.harvest[first..], &budgets[first..]);
    let (mut charges, mut losses) = (vec![0; harvest.len()], vec![0; harvest.len()]);
    let traced = Reference.trace(figures, harvest, budgets, &mut charges, &mut losses);
    traced.expect("budgets that can be traced");
    let mut text = format!("frame,harvest{},budget,charge,loss\n", bounds.names(","));
    for i in 0..harvest.len() {
        let given = format!("{}{}", harvest[i], bounds.cells(first + i, ",", ""));
        text += &format!("{},{given},", first + i + 1);
        text += &format!("{},{},{}\n", budgets[i], charges[i], losses[i]);
    }
    text
}

/// The frames that lead from each record to the next, with the bounds of all frames, as `shift show --csv` prints them.
pub fn recorded_table(records: &[Shift], frames: Frames) -> String {
    let bounds = Bounds::of(frames);
    let mut text = format!("frame,harvest{},use,charge,loss\n", bounds.names(","));
    for (frame, pair) in records.windows(2).enumerate() {
        let (old, new) = (pair[0].now.totals, pair[1].now.totals);
        text += &format!(
            "{},{}{},{},{},{}\n",
            frame + 1,
            new.harvested - old.harvested,
            bounds.cells(frame, ",", ""),
            new.used - old.used,
            pair[1].now.charge,
            new.lost - old.lost
        );
    }
    text
}

/// Checks a property of so many values, the same ones in each run: ENERGY_SEED names others.
pub fn check<S: Strategy>(cases: u32, values: S, property: impl Fn(S::Value) -> Result<(), TestCaseError>) {
    let config = ProptestConfig {
        cases,
        failure_persistence: None,
        ..ProptestConfig::default()
    };
    let mut seed = [0; 32];
    seed[..8].copy_from_slice(&evidence::random::seed().to_le_bytes());
    let random = TestRng::from_seed(RngAlgorithm::ChaCha, &seed);
    let checked = TestRunner::new_with_rng(config, random).run(&values, property);
    checked.unwrap_or_else(|failed| panic!("{failed}"));
}

/// What a run left: its exit status, and both streams.
#[derive(Debug, PartialEq, Eq)]
pub struct Ran {
    pub status: Option<i32>,
    pub out: Vec<u8>,
    pub err: String,
}

impl Ran {
    /// Standard output as text.
    pub fn text(&self) -> String {
        String::from_utf8(self.out.clone()).expect("standard output is text")
    }
}

impl From<Output> for Ran {
    fn from(output: Output) -> Ran {
        Ran {
            status: output.status.code(),
            out: output.stdout,
            err: String::from_utf8_lossy(&output.stderr).into_owned(),
        }
    }
}

/// A folder that goes with the test.
pub struct Folder(tempfile::TempDir);

impl Folder {
    pub fn new() -> Folder {
        Folder(tempfile::tempdir().expect("a temporary folder"))
    }

    /// One with document 01's request.
    pub fn of_the_day() -> Folder {
        let folder = Folder::new();
        folder.write("day.txt", DAY);
        folder
    }

    pub fn path(&self) -> &Path {
        self.0.path()
    }

    pub fn file(&self, name: &str) -> PathBuf {
        self.path().join(name)
    }

    pub fn write(&self, name: &str, bytes: impl AsRef<[u8]>) {
        fs::write(self.file(name), bytes).expect("a written file");
    }

    pub fn read(&self, name: &str) -> Vec<u8> {
        fs::read(self.file(name)).expect("a readable file")
    }

    /// The names in the folder, sorted.
    pub fn names(&self) -> Vec<String> {
        let entries = fs::read_dir(self.path()).expect("a readable folder");
        let mut names: Vec<String> = entries
            .map(|entry| entry.expect("an entry").file_name().to_string_lossy().into_owned())
            .collect();
        names.sort();
        names
    }

    /// The program with these arguments, to be run in the folder.
    pub fn command(&self, arguments: &[&str]) -> Command {
        let mut command = Command::new(env!("CARGO_BIN_EXE_gomzhiva"));
        command.args(arguments).current_dir(self.path()).env_remove(JOURNAL);
        command
    }

    /// The library tests/faults.c in the folder, to be preloaded into the program.
    pub fn faults(&self) -> PathBuf {
        let source = concat!(env!("CARGO_MANIFEST_DIR"), "/../../tests/faults.c");
        let library = self.file("faults.so");
        let mut compiler = Command::new("cc");
        compiler.args(["-shared", "-fPIC", "-O1", source, "-o"]).arg(&library);
        assert!(compiler.status().expect("a C compiler").success());
        library
    }

    /// Runs a shell in the folder, in which `gomzhiva` is the program.
    pub fn shell(&self, script: &str) -> Ran {
        let script = format!("gomzhiva() {{ \"$0\" \"$@\"; }}\n{script}");
        let mut shell = Command::new("sh");
        shell.args(["-c", &script, env!("CARGO_BIN_EXE_gomzhiva")]);
        shell.current_dir(self.path()).stdin(Stdio::null());
        shell.output().expect("a shell").into()
    }

    /// Runs the program as somebody whom permissions bind, as they do not bind root.
    pub fn run_unprivileged(&self, arguments: &[&str]) -> Ran {
        const NOBODY: u32 = 65534;
        let place = Folder::new();
        let program = place.file("gomzhiva");
        // Copied by another process: one that is forked here meanwhile would hold it open, and it could not be run.
        let copied = Command::new("cp")
            .arg(env!("CARGO_BIN_EXE_gomzhiva"))
            .arg(&program)
            .status();
        assert!(copied.expect("the command cp").success());
        fs::set_permissions(place.path(), Permissions::from_mode(0o755)).expect("a folder for everybody");
        let mut command = Command::new(program);
        if fs::metadata(place.path()).expect("a folder").uid() == 0 {
            command.uid(NOBODY).gid(NOBODY);
        }
        command.args(arguments).current_dir(self.path()).stdin(Stdio::null());
        command.output().expect("the program runs").into()
    }

    /// Lets everybody do so much with a file of the folder, or with the folder itself, named ".".
    pub fn permit(&self, name: &str, mode: u32) {
        fs::set_permissions(self.file(name), Permissions::from_mode(mode)).expect("changed permissions");
    }

    /// Runs the program without input.
    pub fn run(&self, arguments: &[&str]) -> Ran {
        self.run_with(arguments, b"")
    }

    /// Runs the program with the arguments of a line, which blanks part, without input.
    pub fn line(&self, line: &str) -> Ran {
        self.line_with(line, "")
    }

    /// The same with this on standard input.
    pub fn line_with(&self, line: &str, input: impl AsRef<[u8]>) -> Ran {
        self.run_with(&line.split_whitespace().collect::<Vec<_>>(), input.as_ref())
    }

    /// What a line of arguments prints, which is done.
    pub fn out(&self, line: &str) -> String {
        self.out_with(line, "")
    }

    /// The same with this on standard input.
    pub fn out_with(&self, line: &str, input: impl AsRef<[u8]>) -> String {
        let ran = self.line_with(line, input);
        assert_eq!(ran.status, Some(0), "{line}: {}", ran.err);
        ran.text()
    }

    /// What `--help` prints of a command.
    pub fn help(&self, command: &str) -> String {
        let ran = self.line(&format!("{command} --help"));
        assert_eq!((ran.status, ran.err.as_str()), (Some(0), ""), "{command}");
        ran.text()
    }

    /// A command and every one under it, as the help lists them; the program itself has no name.
    pub fn commands(&self, command: &str) -> Vec<String> {
        let help = self.help(command);
        let list = help.lines().skip_while(|line| *line != "Commands:").skip(1);
        let names = list.map_while(|line| line.split_whitespace().next());
        let under = names
            .filter(|name| *name != "help")
            .flat_map(|name| self.commands(format!("{command} {name}").trim()));
        [command.to_string()].into_iter().chain(under).collect()
    }

    /// Runs the program with these bytes on standard input.
    pub fn run_with(&self, arguments: &[&str], input: &[u8]) -> Ran {
        let mut command = self.command(arguments);
        command
            .stdin(Stdio::piped())
            .stdout(Stdio::piped())
            .stderr(Stdio::piped());
        let mut child = command.spawn().expect("the program starts");
        let mut stdin = child.stdin.take().expect("a pipe");
        let input = input.to_vec();
        // A program that answers before it has read everything closes the pipe.
        let writer = std::thread::spawn(move || stdin.write_all(&input).ok());
        let ran = child.wait_with_output().expect("the program ends").into();
        writer.join().expect("the writer ends");
        ran
    }
}
