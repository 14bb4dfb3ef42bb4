//! Shifts whose recordings are killed at random moments and opened again: every answered recording is there, none twice.

mod common;

use common::{bounded_text, next, recorded_table, standing, Folder};
use energy::{Figures, Shift};
use evidence::lists::Lists;
use evidence::random::{seed, Random};
use evidence::reference::logbook::Logbook;
use std::path::Path;
use std::process::Stdio;
use std::thread;
use std::time::{Duration, Instant};

const SHIFTS: u32 = 200;

/// How the killed recordings ended, and in how many shifts there was one.
#[derive(Default, Debug)]
struct Ends {
    shifts: u32,
    killed: u32,
    torn: u32,
    written_unanswered: u32,
}

/// A shift, its logbook, and what must be in its journal.
struct Killed<'a> {
    folder: Folder,
    /// Preloaded, so that a line is written in pieces and a kill can tear it.
    faults: Option<&'a Path>,
    forecast: Lists,
    logbook: Logbook,
    /// The record at the start and after each frame.
    records: Vec<Shift>,
    /// How long a recording takes that is not killed.
    lasts: Duration,
}

impl<'a> Killed<'a> {
    fn start(faults: Option<&'a Path>, random: &mut Random) -> Killed<'a> {
        let folder = Folder::new();
        let frames = 3 + random.up_to(5) as usize;
        let mut forecast = Lists::unbounded(random.list(frames, 9));
        if random.one_in(2) {
            forecast.most = random.list(frames, 9);
        }
        let figures = Figures {
            capacity: 12,
            start: random.up_to_u32(12),
            end: 0,
        };
        let request = bounded_text(figures, forecast.frames());
        let started = folder.run_with(&["shift", "start", "-", "--journal", "journal"], request.as_bytes());
        assert_eq!(started.status, Some(0));
        let logbook = Logbook::open(figures, frames);
        Killed {
            folder,
            faults,
            forecast,
            records: vec![logbook.record_now()],
            logbook,
            lasts: Duration::from_millis(3),
        }
    }

    fn is_done(&self) -> bool {
        let shift = self.logbook.record_now();
        shift.now.recorded == shift.terms.frames
    }

    /// What `shift show --csv` must print.
    fn rows(&self) -> String {
        recorded_table(&self.records, self.forecast.frames())
    }

    /// Records the next frame, and kills the program after a while if one is given; the answer as far as it came.
    fn record(&mut self, harvest: u32, used: u32, kill_after: Option<Duration>) -> (String, bool) {
        let frame = self.logbook.record_now().now.recorded + 1;
        let words = [harvest, used, frame].map(|number| number.to_string());
        let [harvest, used, frame] = &words;
        let arguments = [
            "shift",
            "record",
            harvest,
            used,
            "--frame",
            frame,
            "--journal",
            "journal",
        ];
        let mut command = self.folder.command(&arguments);
        if let Some(faults) = self.faults {
            command.env("LD_PRELOAD", faults).env("PIECE", "4").env("PAUSE", "100");
        }
        let begun = Instant::now();
        command
            .stdin(Stdio::null())
            .stdout(Stdio::piped())
            .stderr(Stdio::null());
        let mut child = command.spawn().expect("the program starts");
        if let Some(delay) = kill_after {
            thread::sleep(delay);
            child.kill().expect("a child to kill");
        }
        let output = child.wait_with_output().expect("the program ends");
        if kill_after.is_none() {
            self.lasts = begun.elapsed();
        }
        (
            String::from_utf8_lossy(&output.stdout).into_owned(),
            output.status.code().is_none(),
        )
    }

    /// What the logbook expects of an answered recording, which it then has.
    fn enter(&mut self, harvest: u32, used: u32) -> String {
        self.logbook.record(harvest, used).expect("figures that are accepted");
        let shift = self.logbook.record_now();
        self.records.push(shift);
        let next = next(&self.logbook, self.forecast.frames());
        format!("Recorded frame {}. {}{next}", shift.now.recorded, standing(&shift))
    }

    /// Opens the journal again after a recording that was not answered: it is there, or it is not.
    fn open_again(&mut self, harvest: u32, used: u32, ends: &mut Ends) {
        let shown = self.folder.run(&["shift", "show", "--csv", "--journal", "journal"]);
        assert_eq!(shown.status, Some(0), "{}", shown.err);
        ends.torn += u32::from(shown.err.contains("left out a torn last line"));
        if shown.text() != self.rows() {
            ends.written_unanswered += 1;
            self.enter(harvest, used);
        }
        assert_eq!(shown.text(), self.rows());
    }

    /// One turn of the recording loop.
    fn turn(&mut self, kill: bool, random: &mut Random, ends: &mut Ends) {
        let harvest = random.up_to_u32(9);
        let used = random.up_to_u32(self.logbook.record_now().now.charge + harvest);
        let moment = || self.lasts * random.up_to_u32(1000) / 900;
        let kill_after = kill.then(moment);
        let (answer, killed) = self.record(harvest, used, kill_after);
        ends.killed += u32::from(killed);
        if answer.contains('\n') {
            let whole = self.enter(harvest, used);
            let told = answer == whole || (killed && whole.starts_with(&answer));
            assert!(told, "{answer:?} of {whole:?}");
        } else {
            assert!(killed, "no answer: {answer:?}");
            self.open_again(harvest, used, ends);
        }
    }

    fn assert_is_the_logbooks(&self) {
        let show = |csv: &[&str]| {
            self.folder
                .run(&[&["shift", "show", "--journal", "journal"], csv].concat())
        };
        assert_eq!(show(&["--csv"]).text(), self.rows());
        assert!(show(&[])
            .text()
            .ends_with(&format!("\n\n{}", standing(&self.logbook.record_now()))));
        assert!(self.logbook.balances());
    }
}

#[test]
fn two_hundred_killed_shifts_keep_every_answer_once() {
    let tools = Folder::new();
    let faults = tools.faults();
    let mut ends = Ends::default();
    for case in 0.. {
        let random = &mut Random::of_case(seed(), case);
        let mut shift = Killed::start((case % 2 == 0).then(|| faults.as_path()), random);
        let before = ends.killed;
        while !shift.is_done() {
            // The first recording is not killed, so that it is known how long one takes.
            let first = shift.logbook.record_now().now.recorded == 0;
            let kill = !first && !random.one_in(3);
            shift.turn(kill, random, &mut ends);
        }
        shift.assert_is_the_logbooks();
        ends.shifts += u32::from(ends.killed > before);
        if ends.shifts == SHIFTS {
            break;
        }
    }
    println!("{ends:?}");
    assert!(ends.torn > 0 && ends.written_unanswered > 0, "{ends:?}");
}
