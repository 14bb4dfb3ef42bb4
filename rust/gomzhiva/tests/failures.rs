//! Reads and writes that fail: status 3 with the system's reason, and files that are whole or as they were.

mod common;

use common::{day_words, Folder, Ran, DAY};
use std::fs::{self, File};
use std::os::unix::fs::{symlink, MetadataExt, PermissionsExt};
use std::os::unix::io::OwnedFd;
use std::os::unix::net::UnixStream;
use std::process::{Command, Stdio};

/// Document 01's request, budgets, and a shift's journal.
fn folder_of_a_shift() -> Folder {
    let folder = Folder::of_the_day();
    folder.write("budgets", "4 3 3 2 4 4");
    assert_eq!(
        folder
            .run(&["shift", "start", "day.txt", "--journal", "journal"])
            .status,
        Some(0)
    );
    folder
}

fn assert_failed(ran: &Ran, message: &str) {
    assert_eq!(
        (ran.status, ran.err.as_str()),
        (Some(3), format!("gomzhiva: {message}\n").as_str())
    );
}

/// Every command that prints.
const PRINTING: [&[&str]; 20] = [
    &["plan", "day.txt"],
    &["plan", "day.txt", "--csv"],
    &["plan", "day.txt", "--without-leasts"],
    &["plan", "day.txt", "--listing"],
    &["plan", "day.txt", "--chart", "-"],
    &["needed", "day.txt"],
    &["trace", "day.txt", "budgets"],
    &["trace", "day.txt", "budgets", "--csv"],
    &["grade", "budgets"],
    &["words", "day.txt"],
    &["text", "day.txt"],
    &["shift", "plan", "--journal", "journal"],
    &["shift", "plan", "--csv", "--journal", "journal"],
    &["shift", "plan", "--chart", "-", "--journal", "journal"],
    &["shift", "show", "--journal", "journal"],
    &["shift", "chart", "--journal", "journal"],
    &["completions", "zsh"],
    &["man"],
    &["--help"],
    &["--version"],
];

/// Runs the program by a shell, with a redirection.
fn redirected(folder: &Folder, arguments: &[&str], redirection: &str) -> Ran {
    folder.shell(&format!("gomzhiva {} {redirection}", arguments.join(" ")))
}

/// Runs the program with an output that nobody reads.
fn unread(folder: &Folder, arguments: &[&str]) -> Ran {
    let (output, reader) = UnixStream::pair().expect("two ends");
    drop(reader);
    let mut command = folder.command(arguments);
    command.stdin(Stdio::null()).stdout(OwnedFd::from(output));
    command.output().expect("the program ends").into()
}

#[test]
fn an_output_that_is_closed_full_or_unread() {
    let folder = folder_of_a_shift();
    for arguments in PRINTING {
        let closed = redirected(&folder, arguments, ">&-");
        assert_failed(&closed, "standard output: Bad file descriptor");
        let full = redirected(&folder, arguments, ">/dev/full");
        assert_failed(&full, "standard output: No space left on device");
        assert_failed(&unread(&folder, arguments), "standard output: Broken pipe");
        let silent = redirected(&folder, arguments, ">/dev/full 2>&-");
        assert_eq!(silent.status, Some(3), "the status remains where nothing can be told");
    }
    let refused = redirected(&folder, &["plan", "day.txt", "--capacity", "1"], ">/dev/full");
    assert_failed(
        &refused,
        "refused 4 0: the start charge is 2 Wh, above the capacity of 1 Wh\ngomzhiva: standard output: No space left on device",
    );
}

#[test]
fn a_call_that_is_done_is_told_to_be_done() {
    let folder = folder_of_a_shift();
    let record = redirected(
        &folder,
        &["shift", "record", "1", "3", "--journal", "journal"],
        ">/dev/full",
    );
    assert_failed(
        &record,
        "standard output: No space left on device; recorded frame 1 all the same",
    );
    let start = redirected(&folder, &["shift", "start", "day.txt", "--journal", "new"], ">&-");
    assert_failed(&start, "standard output: Bad file descriptor; started all the same");
    let shown = |journal| folder.run(&["shift", "show", "--csv", "--journal", journal]).text();
    assert_eq!(shown("journal"), "frame,harvest,use,charge,loss\n1,1,3,0,0\n");
    assert_eq!(shown("new"), "frame,harvest,use,charge,loss\n");
}

#[test]
fn an_input_that_is_missing_closed_or_a_directory() {
    let folder = folder_of_a_shift();
    fs::create_dir(folder.file("directory")).expect("a directory");
    let reading: [&[&str]; 8] = [
        &["plan"],
        &["plan", "--listing"],
        &["needed"],
        &["trace", "day.txt"],
        &["grade"],
        &["words"],
        &["text"],
        &["shift", "start", "--journal", "new"],
    ];
    for command in reading {
        let of = |name: &str| folder.run(&[command, &[name]].concat());
        assert_failed(&of("tomorrow.txt"), "tomorrow.txt: No such file or directory");
        assert_failed(&of("directory"), "directory: Is a directory");
        let closed = redirected(&folder, &[command, &["-"]].concat(), "<&-");
        assert_failed(&closed, "standard input: Bad file descriptor");
        let directory = redirected(&folder, &[command, &["-"]].concat(), "<directory");
        assert_failed(&directory, "standard input: Is a directory");
    }
    assert!(!folder.file("new").exists());
}

/// Every command that writes a file, and what it writes.
fn writing(folder: &Folder) -> Vec<(Vec<&'static str>, Vec<u8>)> {
    let picture = |arguments| folder.run(arguments).out;
    vec![
        (vec!["words", "day.txt", "out"], day_words()),
        (vec!["text", "day.txt", "out"], DAY.into()),
        (
            vec!["plan", "day.txt", "--chart", "out"],
            picture(&["plan", "day.txt", "--chart", "-"]),
        ),
        (
            vec!["trace", "day.txt", "budgets", "--chart", "out"],
            picture(&["trace", "day.txt", "budgets", "--chart", "-"]),
        ),
        (
            vec!["shift", "chart", "out", "--journal", "journal"],
            picture(&["shift", "chart", "--journal", "journal"]),
        ),
        (
            vec!["shift", "plan", "--chart", "out", "--journal", "journal"],
            picture(&["shift", "plan", "--chart", "-", "--journal", "journal"]),
        ),
    ]
}

#[test]
fn an_output_file_is_whole_or_as_it_was() {
    let folder = folder_of_a_shift();
    let faults = folder.faults();
    let names = folder.names();
    for (arguments, whole) in writing(&folder) {
        let faulty = |limit: &str, count: &str| {
            let mut command = folder.command(&arguments);
            command
                .env("LD_PRELOAD", &faults)
                .env("PIECE", "7")
                .env(limit, count)
                .env("ERRNO", "28");
            Ran::from(command.stdin(Stdio::null()).output().expect("the program ends"))
        };
        // Before there is such a file, and then in place of an older one: a disk that is full at once, later, or when synced.
        for before in [None, Some(b"older".to_vec())] {
            for (limit, count) in [("WRITES", "0"), ("WRITES", "2"), ("SYNCS", "0")] {
                assert_failed(&faulty(limit, count), "out: No space left on device");
                assert_eq!(fs::read(folder.file("out")).ok(), before, "{arguments:?}");
            }
            folder.write("out", "older");
        }
        assert_eq!(folder.run(&arguments).status, Some(0));
        assert_eq!(folder.read("out"), whole, "{arguments:?}");
        fs::remove_file(folder.file("out")).expect("a removed file");
        assert_eq!(folder.names(), names, "nothing is left behind");
    }
}

#[test]
fn a_limit_on_the_size_of_files_is_a_failed_write() {
    let folder = folder_of_a_shift();
    let (names, journal) = (folder.names(), folder.read("journal"));
    for (command, message) in [
        ("words day.txt out", "out: File too large"),
        ("shift record 1 3 --journal journal", "journal: File too large"),
    ] {
        assert_failed(&folder.shell(&format!("ulimit -f 0; gomzhiva {command}")), message);
        assert_eq!(
            (folder.names(), folder.read("journal")),
            (names.clone(), journal.clone())
        );
    }
}

#[test]
fn outputs_that_cannot_be_written() {
    let folder = folder_of_a_shift();
    fs::create_dir(folder.file("directory")).expect("a directory");
    let words = |output: &str| folder.run(&["words", "day.txt", output]);
    assert_failed(&words("none/out"), "none/out: No such file or directory");
    assert_failed(&words("directory"), "directory: Is a directory");
    assert_failed(&words("/dev/full"), "/dev/full: No space left on device");
    folder.permit(".", 0o755);
    folder.write("locked", "mine");
    folder.permit("locked", 0o444);
    let denied = |output: &str| folder.run_unprivileged(&["words", "day.txt", output]);
    assert_failed(&denied("locked"), "locked: Permission denied");
    assert_failed(&denied("new"), "new: Permission denied");
    assert_eq!(folder.read("locked"), b"mine");
    folder.permit(".", 0o777);
    assert_failed(&denied("locked"), "locked: Permission denied");
    assert_eq!(folder.read("locked"), b"mine");
    assert_eq!(denied("new").status, Some(0));
    assert_eq!(
        folder.names(),
        ["budgets", "day.txt", "directory", "journal", "locked", "new"]
    );
}

#[test]
fn links_permissions_and_devices_stay() {
    let folder = folder_of_a_shift();
    folder.write("out", "older");
    folder.permit("out", 0o640);
    symlink("out", folder.file("link")).expect("a link");
    assert_eq!(folder.run(&["words", "day.txt", "link"]).status, Some(0));
    assert_eq!(folder.read("out"), day_words());
    let mode = |name: &str| fs::symlink_metadata(folder.file(name)).expect("an entry");
    assert_eq!(mode("out").permissions().mode() & 0o777, 0o640);
    assert!(mode("link").file_type().is_symlink());
    assert_eq!(folder.run(&["words", "day.txt", "/dev/null"]).status, Some(0));
    assert!(!fs::metadata("/dev/null").expect("a device").is_file());
    // A link that leads nowhere yet stays one too.
    symlink("new", folder.file("dangling")).expect("a link");
    assert_eq!(folder.run(&["words", "day.txt", "dangling"]).status, Some(0));
    assert_eq!(folder.read("new"), day_words());
    assert!(mode("dangling").file_type().is_symlink());
    // What standard output is connected to keeps what it has.
    folder.write("log", "older\n");
    assert_eq!(
        redirected(&folder, &["text", "day.txt", "/dev/stdout"], ">>log").status,
        Some(0)
    );
    assert_eq!(folder.read("log"), format!("older\n{DAY}").into_bytes());
}

#[test]
fn a_replaced_file_keeps_its_owner() {
    const SOMEBODY: u32 = 4711;
    let folder = folder_of_a_shift();
    folder.write("out", "older");
    // Only root can give files away; for everybody else there is nothing to keep.
    let owner = format!("{SOMEBODY}:{SOMEBODY}");
    let given = Command::new("chown").arg(owner).arg(folder.file("out")).output();
    if given.expect("the command chown").status.success() {
        assert_eq!(folder.run(&["words", "day.txt", "out"]).status, Some(0));
        let known = fs::metadata(folder.file("out")).expect("a file");
        assert_eq!((known.uid(), known.gid()), (SOMEBODY, SOMEBODY));
    }
    assert_eq!(folder.run(&["words", "day.txt", "out"]).status, Some(0));
    assert_eq!(folder.read("out"), day_words());
}

#[test]
fn a_read_that_fails_later_is_a_failure_too() {
    let folder = folder_of_a_shift();
    let mut command = folder.command(&["plan", "-"]);
    command
        .env("LD_PRELOAD", folder.faults())
        .env("PIECE", "7")
        .env("READS", "3");
    command.stdin(File::open(folder.file("day.txt")).expect("the day"));
    let ran = Ran::from(command.output().expect("the program ends"));
    assert_failed(&ran, "standard input: Input/output error");
    assert_eq!(ran.text(), "");
}
