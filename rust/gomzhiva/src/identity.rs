//! What a file is, whatever its name.

use std::fs::{File, Metadata};
use std::io;
use std::os::unix::fs::MetadataExt;

/// The numbers that no other file has at the same time.
pub fn identity(known: &Metadata) -> (u64, u64) {
    (known.dev(), known.ino())
}

/// Whether an open file is the one that was looked up by a name.
pub fn is_same(file: &File, looked_up: io::Result<Metadata>) -> io::Result<bool> {
    Ok(identity(&file.metadata()?) == identity(&looked_up?))
}
