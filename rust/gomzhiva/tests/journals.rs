//! Journals that are locked, that are no regular files, that are given as requests, or that an editor saved in its own way.

mod common;

use common::{on, Folder, Ran, BUDGET_READERS, ON_JOURNAL, RECORD, REQUEST_READERS};
use rustix::fs::{flock, major, minor, FlockOperation};
use std::fs::{self, File};
use std::io::{BufRead, BufReader, Read};
use std::os::unix::fs::{symlink, MetadataExt};
use std::os::unix::net::UnixListener;
use std::process::{self, Child, ChildStderr, Command, Stdio};
use std::thread;
use std::time::{Duration, Instant};

/// The day's request, and its shift with a frame recorded.
fn folder_of_a_shift() -> Folder {
    let folder = Folder::of_the_day();
    let start = on(&["shift", "start", "day.txt"], "journal");
    assert_eq!(folder.run(&start).status, Some(0));
    let record = on(&["shift", "record", "1", "3"], "journal");
    assert_eq!(folder.run(&record).status, Some(0));
    folder
}

fn locked(folder: &Folder, how: FlockOperation) -> File {
    let journal = File::open(folder.file("journal")).expect("the journal");
    flock(&journal, how).expect("a lock");
    journal
}

fn unlock(journal: &File) {
    flock(journal, FlockOperation::Unlock).expect("no lock");
}

/// A command on the journal, running.
struct Waiting {
    child: Child,
    told: BufReader<ChildStderr>,
}

impl Waiting {
    fn begin(folder: &Folder, command: &[&str]) -> Waiting {
        let mut command = folder.command(&on(command, "journal"));
        command
            .stdin(Stdio::null())
            .stdout(Stdio::null())
            .stderr(Stdio::piped());
        let mut child = command.spawn().expect("the program starts");
        let told = BufReader::new(child.stderr.take().expect("a pipe"));
        Waiting { child, told }
    }

    /// The next line that it tells.
    fn line(&mut self) -> String {
        let mut line = String::new();
        self.told.read_line(&mut line).expect("text");
        line
    }

    /// Its status, and what else it tells.
    fn end(mut self) -> (Option<i32>, String) {
        let mut rest = String::new();
        self.told.read_to_string(&mut rest).expect("text");
        (self.child.wait().expect("the program ends").code(), rest)
    }
}

/// What is told of a lock that this process holds: by whom it is held where the system names it.
fn message(journal: &File) -> String {
    let (known, own) = (journal.metadata().expect("a file"), process::id());
    let (device, number) = (known.dev(), known.ino());
    let held = format!(" {own} {:02x}:{:02x}:{number} ", major(device), minor(device));
    let locks = fs::read_to_string("/proc/locks").unwrap_or_default();
    let holder = if locks.contains(&held) {
        let name = fs::read_to_string(format!("/proc/{own}/comm")).expect("a name");
        format!(", held by process {own} ({})", name.trim_end())
    } else {
        String::new()
    };
    format!("gomzhiva: journal: waiting for its lock{holder}\n")
}

#[test]
fn a_lock_that_is_not_free_after_a_second_is_told_once_with_its_holder() {
    let folder = folder_of_a_shift();
    for (how, commands) in [
        (FlockOperation::LockExclusive, &ON_JOURNAL[..]),
        (FlockOperation::LockShared, &[&RECORD]),
    ] {
        let journal = locked(&folder, how);
        let message = message(&journal);
        let mut waiting: Vec<Waiting> = commands
            .iter()
            .map(|command| Waiting::begin(&folder, command))
            .collect();
        for waiting in &mut waiting {
            assert_eq!(waiting.line(), message);
            assert_eq!(waiting.child.try_wait().expect("a child"), None, "it waits");
        }
        unlock(&journal);
        for waiting in waiting {
            assert_eq!(waiting.end(), (Some(0), String::new()));
        }
    }
    assert_eq!(folder.read("journal").iter().filter(|&&byte| byte == b'\n').count(), 4);
}

/// Runs a command on a journal that is locked for a while, and gives whether that was surely less than a second of its wait.
fn runs_untold_in_time(command: &[&str]) -> bool {
    let folder = folder_of_a_shift();
    let journal = locked(&folder, FlockOperation::LockExclusive);
    let begun = Instant::now();
    let waiting = Waiting::begin(&folder, command);
    thread::sleep(Duration::from_millis(100));
    unlock(&journal);
    let is_in_time = begun.elapsed() < Duration::from_secs(1);
    let (status, told) = waiting.end();
    assert_eq!(status, Some(0));
    assert!(told.is_empty() || !is_in_time, "{told}");
    is_in_time
}

#[test]
fn a_lock_that_becomes_free_within_a_second_is_not_told() {
    for command in ON_JOURNAL {
        // A slow machine takes longer than the second, and has to try again: one try of each command is in time.
        while !runs_untold_in_time(command) {}
    }
}

#[test]
fn a_wait_is_told_once_though_the_name_goes_to_another_file() {
    let folder = folder_of_a_shift();
    let before = folder.read("journal");
    let old = locked(&folder, FlockOperation::LockExclusive);
    let mut waiting = Waiting::begin(&folder, &RECORD);
    assert_eq!(waiting.line(), message(&old));
    fs::rename(folder.file("journal"), folder.file("yesterday")).expect("a renaming");
    folder.write("journal", &before);
    let new = locked(&folder, FlockOperation::LockExclusive);
    unlock(&old);
    thread::sleep(Duration::from_millis(1500));
    assert_eq!(folder.read("journal"), before, "it waits for the new one too");
    unlock(&new);
    assert_eq!(waiting.end(), (Some(0), String::new()));
    assert_eq!(folder.read("yesterday"), before);
    assert!(folder.read("journal").len() > before.len());
}

#[test]
fn what_is_no_regular_file_is_no_journal() {
    let folder = folder_of_a_shift();
    fs::create_dir(folder.file("directory")).expect("a directory");
    let made = Command::new("mkfifo").arg(folder.file("fifo")).status();
    assert!(made.expect("the command mkfifo").success());
    symlink("fifo", folder.file("link")).expect("a link");
    let _socket = UnixListener::bind(folder.file("socket")).expect("a socket");
    let names = folder.names();
    for (name, found) in [
        ("directory", "a directory"),
        ("fifo", "a FIFO"),
        ("link", "a FIFO"),
        ("socket", "a socket"),
        ("/dev/null", "a device"),
        ("/dev/zero", "a device"),
    ] {
        let start: &[&str] = &["shift", "start", "day.txt"];
        for command in ON_JOURNAL.into_iter().chain([start]) {
            let ran = folder.run(&on(command, name));
            let message = format!("gomzhiva: {name}: a regular file is expected as a journal, found {found}\n");
            assert_eq!((ran.status, ran.text(), ran.err), (Some(2), String::new(), message));
        }
    }
    let input = folder.shell("echo start | gomzhiva shift show --journal /dev/stdin");
    assert_eq!(input.status, Some(2));
    assert!(input.err.ends_with(", found a FIFO\n"), "{}", input.err);
    assert_eq!(folder.names(), names);
}

#[test]
fn a_journal_is_no_request_and_no_budgets() {
    let folder = folder_of_a_shift();
    folder.write("budgets", "4 3 3 2 4 4");
    let journal = folder.read("journal");
    let refused = |ran: Ran, name: &str, expected: &str| {
        let found = "found a shift's journal; `gomzhiva shift plan --journal FILE` shows the plan of its rest";
        let message = format!("{name}:1:1: {expected} is expected, {found}\n");
        assert_eq!((ran.status, ran.text(), ran.err), (Some(2), String::new(), message));
    };
    let first = journal.iter().position(|&byte| byte == b'\n').expect("a line");
    for bytes in [
        journal.clone(),
        // Just started, torn with zero bytes behind it, saved by an editor, and damaged.
        journal[..=first].to_vec(),
        [&journal[..], b"rec\0\0\0"].concat(),
        String::from_utf8_lossy(&journal).replace('\n', "\r\n").into_bytes(),
        [b"\xef\xbb\xbf", &journal[..]].concat(),
        b"start capacity x".to_vec(),
    ] {
        folder.write("shift.journal", &bytes);
        for (readers, expected) in [
            (&REQUEST_READERS[..], "a request"),
            (&["plan FILE --capacity 5 --start 2 --end 2"], "a request"),
            (&BUDGET_READERS, "a list of budgets"),
        ] {
            for reader in readers {
                let named = folder.line(&reader.replace("FILE", "shift.journal"));
                refused(named, "shift.journal", expected);
                let read = folder.line_with(&reader.replace("FILE", "-"), &bytes);
                refused(read, "standard input", expected);
            }
        }
    }
    // Neither a start charge without a number nor one behind a capacity is a journal.
    for text in [
        "start capacity\n5\n",
        "start  capacity 5\n",
        "capacity 5\nstart capacity 2\n",
    ] {
        let ran = folder.run_with(&["plan", "-"], text.as_bytes());
        assert_eq!(ran.status, Some(2));
        assert!(!ran.err.contains("journal"), "{}", ran.err);
    }
    assert_eq!(folder.names(), ["budgets", "day.txt", "journal", "shift.journal"]);
    assert_eq!(folder.read("journal"), journal);
}

/// Every command on a journal of these bytes is refused with this message, and the journal stays.
fn assert_refused(folder: &Folder, bytes: &[u8], message: &str) {
    folder.write("journal", bytes);
    for command in ON_JOURNAL {
        let ran = folder.run(&on(command, "journal"));
        assert_eq!((ran.status, ran.text().as_str()), (Some(2), ""));
        assert!(ran.err.starts_with(message), "{:?} and not {message:?}", ran.err);
    }
    assert_eq!(folder.read("journal"), bytes);
}

#[test]
fn a_journal_saved_with_cr_lf_says_so() {
    let folder = folder_of_a_shift();
    let text = String::from_utf8(folder.read("journal")).expect("a journal is text");
    let (first, second) = text.split_at(text.find('\n').expect("a line") + 1);
    let with_cr = |line: &str| line.replace('\n', "\r\n");
    let saved = |line: usize| {
        let found = "found CR LF, with which an editor of another system saved it (`tr -d '\\r'` removes the CRs)\n";
        format!("journal:{line}:1: LF, in which a journal's lines end, is expected, {found}")
    };
    assert_refused(&folder, with_cr(&text).as_bytes(), &saved(1));
    assert_refused(&folder, with_cr(first).as_bytes(), &saved(1));
    assert_refused(&folder, (first.to_string() + &with_cr(second)).as_bytes(), &saved(2));
    // Where that is not all, the line is damaged as any other.
    let start = "journal:1:1: the start of a shift, as a journal begins, is expected, found ";
    let whole = "journal:2:1: a whole line as it was written is expected, found ";
    for (damaged, message) in [
        (with_cr(&text).replace("harvest 6", "harvest 7"), start),
        (with_cr(second), start),
        (first.replace('\n', "\r\r\n"), start),
        (first.replace('\n', "\r"), start),
        (first.to_string() + &with_cr(&second.replace('3', "4")), whole),
        (format!("{first}\r\n{second}"), whole),
        (first.to_string() + &second.replace('\n', "\r"), whole),
    ] {
        assert_refused(&folder, damaged.as_bytes(), message);
    }
}
