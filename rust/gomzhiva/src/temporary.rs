//! Files under temporary names, each locked until it has its own; those of processes that are gone are removed.

use crate::identity::is_same;
use rustix::fs::{flock, FlockOperation};
use rustix::io::Errno;
use std::fs::{self, File, OpenOptions};
use std::io;
use std::os::unix::fs::OpenOptionsExt;
use std::path::{Path, PathBuf};
use std::process;

/// The most names that are tried for a new file.
const MOST_NAMES: u32 = 100;

fn name(process: u32, number: u32) -> String {
    format!(".gomzhiva-{process}-{number}.tmp")
}

/// The process that wrote under such a name.
fn writer(name_of: &str) -> Option<u32> {
    let numbers = name_of.strip_prefix(".gomzhiva-")?.strip_suffix(".tmp")?;
    let (process, number) = numbers.split_once('-')?;
    let (process, number) = (process.parse().ok()?, number.parse().ok()?);
    (name(process, number) == name_of).then_some(process)
}

/// A file under a name that nothing else has, locked as long as it is open.
pub fn create(folder: &Path) -> io::Result<(File, PathBuf)> {
    remove_left(folder);
    for number in 0..MOST_NAMES {
        let path = folder.join(name(process::id(), number));
        match OpenOptions::new().write(true).create_new(true).open(&path) {
            Err(error) if error.kind() == io::ErrorKind::AlreadyExists => {}
            opened => {
                let file = opened?;
                if is_kept(&file, &path) {
                    return Ok((file, path));
                }
            }
        }
    }
    Err(io::Error::from_raw_os_error(libc::EEXIST))
}

/// Locks a new file, if its file system has locks; another process may have removed it before.
fn is_kept(file: &File, path: &Path) -> bool {
    flock(file, FlockOperation::NonBlockingLockExclusive) != Err(Errno::WOULDBLOCK)
        && is_same(file, fs::symlink_metadata(path)).unwrap_or(false)
}

/// Removes what processes that are gone left in a folder; what cannot be removed stays.
pub fn remove_left(folder: &Path) {
    for entry in fs::read_dir(folder).into_iter().flatten().flatten() {
        let writer = entry.file_name().to_str().and_then(writer);
        if writer.map_or(false, is_gone) {
            let _ = remove_unlocked(&entry.path());
        }
    }
}

/// Whether nothing here runs under this number. What runs elsewhere over the same folder is told by its lock, and under this
/// process's own number nothing is written yet.
fn is_gone(process: u32) -> bool {
    let is_missing = |process| {
        // SAFETY: the signal 0 is sent to nobody.
        let found = unsafe { libc::kill(process, 0) } == 0;
        !found && io::Error::last_os_error().raw_os_error() == Some(libc::ESRCH)
    };
    process == process::id() || i32::try_from(process).map_or(false, is_missing)
}

/// Removes a regular file that nobody has locked.
fn remove_unlocked(path: &Path) -> io::Result<()> {
    if !fs::symlink_metadata(path)?.is_file() {
        return Ok(());
    }
    // Over a network, only a file that is opened to be written can be locked alone.
    let flags = libc::O_NOFOLLOW | libc::O_NONBLOCK;
    let file = OpenOptions::new().write(true).custom_flags(flags).open(path)?;
    flock(&file, FlockOperation::NonBlockingLockExclusive)?;
    if is_same(&file, fs::symlink_metadata(path))? {
        fs::remove_file(path)?;
    }
    Ok(())
}

#[cfg(test)]
mod tests {
    use super::*;

    #[test]
    fn a_writer_is_read_from_just_its_names() {
        assert_eq!(writer(&name(4711, 0)), Some(4711));
        assert_eq!(writer(&name(1, 99)), Some(1));
        for other in [
            "",
            "gomzhiva-1-0.tmp",
            ".gomzhiva-1-0.tmp~",
            ".gomzhiva-1-0",
            ".gomzhiva-1.tmp",
            ".gomzhiva-01-0.tmp",
            ".gomzhiva-1-00.tmp",
            ".gomzhiva-+1-0.tmp",
            ".gomzhiva--1-0.tmp",
            ".gomzhiva-1-0-0.tmp",
            ".gomzhiva-x-0.tmp",
            ".gomzhiva-4294967296-0.tmp",
        ] {
            assert_eq!(writer(other), None, "{other}");
        }
    }

    #[test]
    fn no_number_that_runs_or_means_several_processes_is_gone() {
        for process in [0, 1, u32::MAX] {
            assert!(!is_gone(process), "{process}");
        }
        assert!(is_gone(i32::MAX as u32) && is_gone(process::id()));
    }
}
