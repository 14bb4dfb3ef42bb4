//! Temporary files that other runs left, and the names of files in messages.

mod common;

use common::{day_words, Folder, DAY};
use rustix::fs::{flock, FlockOperation};
use rustix::io::Errno;
use rustix::process::{waitpid, Pid, WaitOptions, WaitStatus};
use std::fs::{self, File};
use std::os::unix::fs::symlink;
use std::process::{self, Child, Command, Stdio};

/// A temporary file of a process that no system has.
const LEFT: &str = ".gomzhiva-2147483647-0.tmp";

/// Every command that makes or replaces a file.
const WRITING: [&[&str]; 4] = [
    &["words", "day.txt", "out"],
    &["text", "day.txt", "out"],
    &["plan", "day.txt", "--chart", "out"],
    &["shift", "start", "day.txt", "--journal", "new"],
];

/// The program, stopped behind the first 8 bytes of a file; dropped, it is killed.
struct Stopped(Child);

impl Drop for Stopped {
    fn drop(&mut self) {
        self.0.kill().and_then(|()| self.0.wait()).expect("a killed child");
    }
}

fn stopped_within_a_write(folder: &Folder) -> Stopped {
    let mut command = folder.command(WRITING[0]);
    let faults = [("PIECE", "8"), ("STOPS", "1")];
    command.env("LD_PRELOAD", folder.faults()).envs(faults);
    let child = command.stdin(Stdio::null()).spawn().expect("the program starts");
    let status = waitpid(Some(Pid::from_child(&child)), WaitOptions::UNTRACED).expect("a child");
    assert!(status.map_or(false, WaitStatus::stopped), "it ended");
    Stopped(child)
}

#[test]
fn the_next_write_removes_what_a_killed_one_left() {
    let folder = Folder::of_the_day();
    let stopped = stopped_within_a_write(&folder);
    let left = format!(".gomzhiva-{}-0.tmp", stopped.0.id());
    assert_eq!(folder.read(&left), day_words()[..8]);
    // While it is written, it is locked, and stays.
    let file = File::open(folder.file(&left)).expect("the temporary file");
    assert_eq!(
        flock(&file, FlockOperation::NonBlockingLockShared),
        Err(Errno::WOULDBLOCK)
    );
    assert_eq!(folder.run(&["text", "day.txt", "other"]).status, Some(0));
    assert!(folder.file(&left).exists());
    drop(stopped);
    assert_eq!(folder.names(), [&left, "day.txt", "faults.so", "other"]);
    for reading in [&["needed", "day.txt"][..], &["text", "day.txt"]] {
        assert_eq!(folder.run(reading).status, Some(0));
        assert!(folder.file(&left).exists(), "nothing was written here");
    }
    assert_eq!(folder.run(&["words", "day.txt", "out"]).status, Some(0));
    assert_eq!(folder.names(), ["day.txt", "faults.so", "other", "out"]);
    assert_eq!(folder.read("out"), day_words());
}

#[test]
fn every_write_removes_what_is_left_in_its_folder() {
    let folder = Folder::of_the_day();
    fs::create_dir(folder.file("elsewhere")).expect("a directory");
    let elsewhere = format!("elsewhere/{LEFT}");
    folder.write(&elsewhere, "left");
    for command in WRITING {
        folder.write(LEFT, "left");
        folder.write(".gomzhiva-2147483646-7.tmp", "");
        let ran = folder.run(command);
        assert_eq!((ran.status, ran.err.as_str()), (Some(0), ""));
        let written = *command.last().expect("a name");
        assert_eq!(folder.names(), ["day.txt", "elsewhere", written]);
        fs::remove_file(folder.file(written)).expect("a removed file");
    }
    // A recording is a write too.
    assert_eq!(folder.run(WRITING[3]).status, Some(0));
    folder.write(LEFT, "left");
    assert_eq!(folder.line("shift show --journal new").status, Some(0));
    assert!(folder.file(LEFT).exists(), "nothing was written");
    assert_eq!(folder.line("shift record 1 3 --journal new").status, Some(0));
    assert_eq!(folder.names(), ["day.txt", "elsewhere", "new"]);
    // By a link, the file is written where the link leads.
    symlink("elsewhere/out", folder.file("out")).expect("a link");
    assert_eq!(folder.run(WRITING[0]).status, Some(0));
    assert!(!folder.file(&elsewhere).exists());
}

#[test]
fn a_temporary_file_that_is_locked_stays() {
    let folder = Folder::of_the_day();
    folder.write(LEFT, "written elsewhere");
    let file = File::open(folder.file(LEFT)).expect("the temporary file");
    for lock in [FlockOperation::LockExclusive, FlockOperation::LockShared] {
        flock(&file, lock).expect("a lock");
        assert_eq!(folder.run(WRITING[0]).status, Some(0));
        assert_eq!(folder.read(LEFT), b"written elsewhere");
    }
    flock(&file, FlockOperation::Unlock).expect("no lock");
    assert_eq!(folder.run(WRITING[0]).status, Some(0));
    assert_eq!(folder.names(), ["day.txt", "out"]);
}

#[test]
fn a_journal_loses_only_the_name_that_a_killed_start_left_it() {
    let folder = Folder::of_the_day();
    assert_eq!(folder.run(WRITING[3]).status, Some(0));
    fs::hard_link(folder.file("new"), folder.file(LEFT)).expect("a link");
    let before = folder.read("new");
    assert_eq!(folder.run(WRITING[0]).status, Some(0));
    assert_eq!(folder.names(), ["day.txt", "new", "out"]);
    assert_eq!(folder.read("new"), before);
}

#[test]
fn what_is_not_left_by_a_process_that_is_gone_stays() {
    let folder = Folder::of_the_day();
    let of_this_process = format!(".gomzhiva-{}-0.tmp", process::id());
    for name in [
        of_this_process.as_str(),
        ".gomzhiva-0-0.tmp",
        ".gomzhiva-02147483647-0.tmp",
        ".gomzhiva-2147483647-00.tmp",
        ".gomzhiva-2147483647-0.tmp~",
        ".gomzhiva-2147483647.tmp",
        ".gomzhiva--1-0.tmp",
        ".gomzhiva-4294967295-0.tmp",
        "gomzhiva-2147483647-0.tmp",
    ] {
        folder.write(name, "mine");
    }
    symlink("day.txt", folder.file(LEFT)).expect("a link");
    fs::create_dir(folder.file(".gomzhiva-2147483647-1.tmp")).expect("a directory");
    let fifo = folder.file(".gomzhiva-2147483647-2.tmp");
    let made = Command::new("mkfifo").arg(&fifo).status();
    assert!(made.expect("the command mkfifo").success());
    let _reader = File::options().read(true).write(true).open(fifo).expect("both ends");
    let names = folder.names();
    for command in WRITING {
        let ran = folder.run(command);
        assert_eq!((ran.status, ran.err.as_str()), (Some(0), ""));
        fs::remove_file(folder.file(command.last().expect("a name"))).expect("a removed file");
        assert_eq!(folder.names(), names);
    }
    assert_eq!(folder.read("day.txt"), DAY.as_bytes());
}

#[test]
fn what_cannot_be_removed_is_passed_over() {
    let folder = Folder::of_the_day();
    folder.write(LEFT, "left");
    folder.permit(LEFT, 0o444);
    // Everybody may write here, and remove what is their own.
    folder.permit(".", 0o1777);
    let ran = folder.run_unprivileged(&["words", "day.txt", "out"]);
    assert_eq!((ran.status, ran.err.as_str()), (Some(0), ""));
    assert_eq!(folder.names(), [LEFT, "day.txt", "out"]);
}

/// A name that would begin a line, colour it red and turn its end around, and how it is printed.
const STEERING: &str = "a\nb\u{1b}[31m\u{202e}txt.\u{2066}\u{9b}";
const ESCAPED: &str = "a\\nb\\u{1b}[31m\\u{202e}txt.\\u{2066}\\u{9b}";
/// A name of which nothing is escaped.
const PLAIN: &str = "Früh u\u{308} 'a' \"b\" \\n 計画";

#[test]
fn names_are_printed_with_their_control_characters_escaped() {
    let folder = Folder::of_the_day();
    fs::create_dir(folder.file("directory")).expect("a directory");
    for (name, printed) in [(STEERING, ESCAPED), (PLAIN, PLAIN)] {
        let told = |arguments: &[&str], status: i32, message: &str| {
            let ran = folder.run(arguments);
            let message = message.replace("NAME", printed);
            assert_eq!((ran.status, ran.err), (Some(status), message + "\n"), "{arguments:?}");
        };
        let shift = |command: &[&'static str]| -> Vec<&str> { [&["shift"], command, &["--journal", name]].concat() };
        let missing = "gomzhiva: NAME: No such file or directory";
        told(&["plan", name], 3, missing);
        told(&["grade", name], 3, missing);
        told(&shift(&["show"]), 3, missing);
        told(
            &["words", "day.txt", &format!("none/{name}")],
            3,
            &missing.replace("NAME", "none/NAME"),
        );
        folder.write(name, "capacity x\n");
        let number = "a whole number up to 4294967295 is expected, found 'x'";
        told(&["plan", name], 2, &format!("NAME:1:10: {number}"));
        told(&["trace", "day.txt", name], 2, &format!("NAME:1:10: {number}"));
        folder.write(name, DAY);
        told(
            &["words", name, name],
            2,
            "gomzhiva: NAME: an output that is neither an input nor another output is expected; nothing is written",
        );
        told(
            &shift(&["start", "day.txt"]),
            3,
            "gomzhiva: NAME: File exists; nothing is started, since a shift needs a new journal",
        );
        told(
            &shift(&["show"]),
            2,
            "NAME:1:1: the start of a shift, as a journal begins, is expected, found 'capacity 5'",
        );
        folder.write(name, "\0");
        let no_words = folder.run(&["needed", name]);
        assert!(
            no_words
                .err
                .contains(&format!("; {printed} has a byte 0 and so is no text")),
            "{}",
            no_words.err
        );
        fs::remove_file(folder.file(name)).expect("a removed file");
        let started = folder.run(&shift(&["start", "day.txt"]));
        assert_eq!((started.status, started.err.as_str()), (Some(0), ""));
        told(
            &["text", "day.txt", name],
            2,
            "gomzhiva: NAME: an output that is no shift's journal is expected; nothing is written",
        );
        let journal = folder.read(name);
        folder.write(name, [&journal[..], b"rec"].concat());
        told(
            &shift(&["show"]),
            0,
            "NAME:2:1: left out a torn last line: its recording was never answered",
        );
        folder.write(name, [&journal[..], b"rec\n"].concat());
        told(
            &shift(&["plan"]),
            2,
            "NAME:2:1: a whole line as it was written is expected, found 'rec'",
        );
        fs::remove_file(folder.file(name)).expect("a removed file");
        fs::create_dir(folder.file(name)).expect("a directory");
        told(
            &shift(&["plan"]),
            2,
            "gomzhiva: NAME: a regular file is expected as a journal, found a directory",
        );
        fs::remove_dir(folder.file(name)).expect("a removed directory");
    }
}

#[test]
fn a_usage_error_repeats_arguments_with_their_control_characters_escaped() {
    let folder = Folder::of_the_day();
    let errors = |name: &str| {
        let option = format!("--{name}");
        let arguments: [&[&str]; 6] = [
            &[name],
            &["plan", "day.txt", name],
            &["plan", "day.txt", &option],
            &["plan", "day.txt", "--capacity", name],
            &["shift", name],
            &["shift", "record", "1", name],
        ];
        arguments.map(|arguments| {
            let ran = folder.run(arguments);
            assert_eq!((ran.status, ran.out.as_slice()), (Some(2), &b""[..]));
            ran.err
        })
    };
    for (error, escaped) in errors(STEERING).into_iter().zip(errors(ESCAPED)) {
        assert!(error.contains(ESCAPED), "{error}");
        assert_eq!(error, escaped, "the lines are those that any error has");
    }
    assert!(errors(PLAIN).iter().all(|error| error.contains(PLAIN)));
    // An argument that is a request's name is the name of that file.
    folder.write(STEERING, DAY);
    assert_eq!(folder.run(&["needed", STEERING]).text(), "needed capacity 6 Wh\n");
}
