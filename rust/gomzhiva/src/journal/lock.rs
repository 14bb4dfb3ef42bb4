//! The lock of a journal: tried for a second, then waited for once it is told whose it is.

use super::Purpose;
use crate::failure::Failure;
use crate::identity::is_same;
use crate::names::{escaped, printed};
use crate::streams::tell;
use rustix::fs::{flock, major, minor, FlockOperation};
use rustix::io::Errno;
use std::collections::BTreeSet;
use std::fs::{self, File, FileType, Metadata, OpenOptions};
use std::io;
use std::os::unix::fs::{FileTypeExt, MetadataExt};
use std::path::Path;
use std::thread::sleep;
use std::time::{Duration, Instant};

/// How long a lock is tried before it is told that it is waited for.
const UNTOLD: Duration = Duration::from_secs(1);
const BETWEEN_TRIES: Duration = Duration::from_millis(5);

/// Opens a journal and locks it, alone if it is to be written.
pub fn locked(path: &Path, purpose: Purpose) -> Result<File, Failure> {
    let failed = |error: io::Error| Failure::system(printed(path), &error);
    let mut waiting = Waiting {
        begun: Instant::now(),
        is_told: false,
    };
    loop {
        refuse_irregular(path, &fs::metadata(path).map_err(failed)?)?;
        let file = open(path, purpose).map_err(failed)?;
        waiting.lock(&file, path, purpose).map_err(failed)?;
        // While it was waited for, the name may have been given to another file.
        if is_same(&file, fs::metadata(path)).map_err(failed)? {
            return Ok(file);
        }
    }
}

fn open(path: &Path, purpose: Purpose) -> io::Result<File> {
    let records = purpose == Purpose::Record;
    OpenOptions::new().read(true).write(records).open(path)
}

/// Refuses what is no file to be locked and read again, before opening it waits or does something.
pub fn refuse_irregular(path: &Path, known: &Metadata) -> Result<(), Failure> {
    if known.is_file() {
        return Ok(());
    }
    let (name, found) = (printed(path), kind(known.file_type()));
    Err(Failure::Fault(format!(
        "gomzhiva: {name}: a regular file is expected as a journal, found {found}"
    )))
}

/// What a file is that is not regular.
fn kind(other: FileType) -> &'static str {
    match other {
        other if other.is_dir() => "a directory",
        other if other.is_fifo() => "a FIFO",
        other if other.is_socket() => "a socket",
        _ => "a device",
    }
}

/// The wait for a lock, which is told once.
struct Waiting {
    begun: Instant,
    is_told: bool,
}

impl Waiting {
    fn lock(&mut self, file: &File, path: &Path, purpose: Purpose) -> io::Result<()> {
        let (tried, waited_for) = match purpose {
            Purpose::Record => (FlockOperation::NonBlockingLockExclusive, FlockOperation::LockExclusive),
            Purpose::Look => (FlockOperation::NonBlockingLockShared, FlockOperation::LockShared),
        };
        while !self.is_told {
            // Before the last try, so that a lock which becomes free in time is not told.
            let is_late = self.begun.elapsed() >= UNTOLD;
            match flock(file, tried) {
                Err(Errno::WOULDBLOCK) if is_late => self.tell(file, path)?,
                Err(Errno::WOULDBLOCK) => sleep(BETWEEN_TRIES),
                done => return Ok(done?),
            }
        }
        Ok(flock(file, waited_for)?)
    }

    fn tell(&mut self, file: &File, path: &Path) -> io::Result<()> {
        let (name, held) = (printed(path), held_by(&file.metadata()?));
        tell(format!("gomzhiva: {name}: waiting for its lock{held}"));
        self.is_told = true;
        Ok(())
    }
}

/// Whose locks a file has, in words, as far as the system names them.
fn held_by(known: &Metadata) -> String {
    let locks = fs::read_to_string("/proc/locks").unwrap_or_default();
    let processes: BTreeSet<String> = locks.lines().filter_map(|lock| holder(lock, known)).collect();
    let processes: Vec<String> = processes.into_iter().collect();
    match processes.as_slice() {
        [] => String::new(),
        processes => format!(", held by {}", processes.join(" and ")),
    }
}

/// The process that holds a lock, if it is one of this file, in a line such as `1: FLOCK ADVISORY WRITE 1234 fe:00:5678 0 EOF`.
fn holder(lock: &str, known: &Metadata) -> Option<String> {
    let (device, number) = (known.dev(), known.ino());
    let locked = format!("{:02x}:{:02x}:{number}", major(device), minor(device));
    match lock.split_whitespace().collect::<Vec<_>>().as_slice() {
        [_, "FLOCK", _, _, process, of, ..] if *of == locked => named(process),
        _ => None,
    }
}

fn named(process: &str) -> Option<String> {
    let name = fs::read(format!("/proc/{process}/comm")).ok()?;
    let name = String::from_utf8_lossy(&name);
    let name = escaped(name.strip_suffix('\n').unwrap_or(&name));
    Some(format!("process {process} ({name})"))
}

#[cfg(test)]
mod tests {
    use super::*;
    use std::process;

    #[test]
    fn a_holder_is_named_of_just_the_locks_of_a_file() {
        let known = fs::metadata("/proc/self/exe").expect("this program");
        let (own, device) = (process::id(), known.dev());
        let of = |number: u64| format!("{:02x}:{:02x}:{number}", major(device), minor(device));
        let (this, other) = (of(known.ino()), of(known.ino() + 1));
        let named = holder(&format!("7: FLOCK  ADVISORY  WRITE {own} {this} 0 EOF"), &known);
        assert!(named.expect("a holder").starts_with(&format!("process {own} (")));
        for line in [
            format!("7: FLOCK  ADVISORY  WRITE {own} {other} 0 EOF"),
            format!("7: -> FLOCK  ADVISORY  WRITE {own} {this} 0 EOF"),
            format!("7: POSIX  ADVISORY  WRITE {own} {this} 0 EOF"),
            format!("7: FLOCK  ADVISORY  WRITE 0 {this} 0 EOF"),
            format!("7: FLOCK  ADVISORY  WRITE {} {this} 0 EOF", i32::MAX),
            "7: FLOCK".to_string(),
        ] {
            assert_eq!(holder(&line, &known), None, "{line}");
        }
    }
}
