//! Files by name, with `-` for standard input and output; an output file is written whole or not at all.

use crate::failure::Failure;
use crate::identity::identity;
use crate::names::printed;
use crate::{streams, temporary};
use rustix::fs::{cwd, fchown, renameat_with, RenameFlags};
use rustix::process::{Gid, Uid};
use std::ffi::OsString;
use std::fs::{self, File, Metadata, OpenOptions};
use std::io::{self, Read, Write};
use std::iter::successors;
use std::os::unix::fs::MetadataExt;
use std::path::{Path, PathBuf};

/// The most bytes of a request as text; of a longer input one byte more is read, and no further.
pub const MOST_BYTES: usize = 1 << 20;
pub const READ_BYTES: u64 = MOST_BYTES as u64 + 1;

/// A file as the user names it.
#[derive(Clone, Debug)]
pub struct Place(PathBuf);

impl From<OsString> for Place {
    fn from(name: OsString) -> Place {
        Place(name.into())
    }
}

const STANDARD_INPUT: &str = "/dev/stdin";
const STANDARD_OUTPUTS: [&str; 2] = ["/dev/stdout", "/dev/stderr"];

impl Place {
    /// Standard input or standard output, by what it is used for.
    fn is_dash(&self) -> bool {
        self.0.as_os_str() == "-"
    }

    pub fn is_standard_input(&self) -> bool {
        self.is_dash() || self.0.as_os_str() == STANDARD_INPUT
    }

    pub fn is_standard_output(&self) -> bool {
        self.is_dash() || self.0.as_os_str() == STANDARD_OUTPUTS[0]
    }

    /// The file that it names.
    pub fn file(&self) -> Option<&Path> {
        (!self.is_dash()).then_some(self.0.as_path())
    }

    /// As it was given.
    pub fn given(&self) -> String {
        printed(&self.0)
    }

    /// What messages call it as an input.
    pub fn input_name(&self) -> String {
        if self.is_standard_input() {
            "standard input".to_string()
        } else {
            self.given()
        }
    }

    /// What messages call it as an output.
    fn output_name(&self) -> String {
        if self.is_standard_output() {
            "standard output".to_string()
        } else {
            self.given()
        }
    }

    fn as_input(&self) -> &Path {
        self.file().unwrap_or_else(|| Path::new(STANDARD_INPUT))
    }

    /// The bytes of an input, which must not be what is printed to: that would be read, or grow, or be lost.
    pub fn read(&self) -> Result<Vec<u8>, Failure> {
        if is_one_of(self.as_input(), &[Path::new(STANDARD_OUTPUTS[0])]) {
            let name = self.input_name();
            return Err(Failure::Fault(format!(
                "gomzhiva: {name}: an input that is no output is expected"
            )));
        }
        let bytes = if self.is_standard_input() {
            streams::read(READ_BYTES)
        } else {
            read_file(&self.0)
        };
        bytes.map_err(|error| Failure::system(self.input_name(), &error))
    }

    /// Refuses an output file that is one of the inputs, whose place it would take, or another name of a standard output.
    pub fn refuse_any_of(&self, inputs: &[&Place]) -> Result<(), Failure> {
        let mut others: Vec<&Path> = inputs.iter().map(|input| input.as_input()).collect();
        others.extend(STANDARD_OUTPUTS.iter().map(Path::new));
        if !self.is_standard_output() && is_one_of(&self.0, &others) {
            return Err(Failure::Fault(format!(
                "gomzhiva: {}: an output that is neither an input nor another output is expected; nothing is written",
                self.given()
            )));
        }
        Ok(())
    }

    /// Writes an output.
    pub fn write(&self, bytes: &[u8]) -> Result<(), Failure> {
        let written = if self.is_standard_output() {
            streams::write(bytes)
        } else {
            replace(&self.0, bytes)
        };
        written.map_err(|error| Failure::system(self.output_name(), &error))
    }
}

/// A regular file that has one of these names too.
fn is_one_of(path: &Path, others: &[&Path]) -> bool {
    let known = |path: &Path| fs::metadata(path).ok().filter(Metadata::is_file);
    let own = known(path).map(|known| identity(&known));
    let is_own = |other: &&Path| own.is_some() && known(other).map(|known| identity(&known)) == own;
    others.iter().any(is_own)
}

/// Whether an output, standard output if none is named, is a regular file that begins with these bytes.
pub fn output_begins_with(output: Option<&Path>, beginning: &[u8]) -> bool {
    let path = output.unwrap_or_else(|| Path::new(STANDARD_OUTPUTS[0]));
    let begins = || -> io::Result<bool> {
        let mut bytes = vec![0; beginning.len()];
        File::open(path)?.read_exact(&mut bytes)?;
        Ok(bytes == beginning)
    };
    fs::metadata(path).map_or(false, |known| known.is_file()) && begins().unwrap_or(false)
}

/// Prints text for people on standard output.
pub fn print(text: &str) -> Result<(), Failure> {
    streams::write(text.as_bytes()).map_err(|error| Failure::system("standard output", &error))
}

fn read_file(path: &Path) -> io::Result<Vec<u8>> {
    let mut bytes = Vec::new();
    File::open(path)?.take(READ_BYTES).read_to_end(&mut bytes)?;
    Ok(bytes)
}

/// Puts the bytes in the place of what a file held, if that may be written; what is no regular file, such as a device, is
/// written as it is.
fn replace(path: &Path, bytes: &[u8]) -> io::Result<()> {
    let known = match OpenOptions::new().write(true).open(path) {
        Ok(mut file) => match file.metadata()? {
            known if known.is_file() => Some(known),
            _ => return file.write_all(bytes),
        },
        Err(error) if error.kind() == io::ErrorKind::NotFound => None,
        Err(error) => return Err(error),
    };
    put(&linked(path), bytes, known, |new, path| fs::rename(new, path))?.sync_all()
}

/// The file that symbolic links lead to, as many of them as the system follows, whether or not it is there.
fn linked(path: &Path) -> PathBuf {
    const MOST_LINKS: usize = 40;
    let follow = |path: &PathBuf| Some(folder_of(path).join(fs::read_link(path).ok()?));
    let links = successors(Some(path.to_path_buf()), follow);
    links.take(MOST_LINKS + 1).last().unwrap_or_default()
}

/// The folder in which a file stands.
pub fn folder_of(path: &Path) -> &Path {
    match path.parent() {
        Some(parent) if !parent.as_os_str().is_empty() => parent,
        _ => Path::new("."),
    }
}

/// Makes a file that must not be there yet, and is not if its name cannot be synced.
pub fn create(path: &Path, bytes: &[u8]) -> io::Result<()> {
    let folder = put(path, bytes, None, name_first)?;
    folder.sync_all().map_err(|error| {
        let _ = fs::remove_file(path);
        error
    })
}

/// Gives a file a name that nothing has: by a link, or where the file system has none, such as FAT, by a renaming.
fn name_first(new: &Path, path: &Path) -> io::Result<()> {
    match fs::hard_link(new, path) {
        Ok(()) => {
            // The file has its own name now, and loses nothing with the other one.
            let _ = fs::remove_file(new);
            Ok(())
        }
        Err(error) if error.kind() == io::ErrorKind::PermissionDenied => {
            Ok(renameat_with(cwd(), new, cwd(), path, RenameFlags::NOREPLACE)?)
        }
        Err(error) => Err(error),
    }
}

/// Writes and syncs the bytes under another name in the same folder, then gives them their own name; the folder is still to
/// be synced. What is known of a file that they replace, its owner and permissions, stays.
fn put(
    path: &Path,
    bytes: &[u8],
    known: Option<Metadata>,
    give_name: impl Fn(&Path, &Path) -> io::Result<()>,
) -> io::Result<File> {
    let folder = File::open(folder_of(path))?;
    // It stays open, and so locked, until it has its own name.
    let (mut file, new) = temporary::create(folder_of(path))?;
    match fill(&mut file, bytes, known).and_then(|()| give_name(&new, path)) {
        Ok(()) => Ok(folder),
        Err(error) => {
            let _ = fs::remove_file(&new);
            Err(error)
        }
    }
}

fn fill(file: &mut File, bytes: &[u8], known: Option<Metadata>) -> io::Result<()> {
    if let Some(known) = known {
        let own = file.metadata()?;
        if (known.uid(), known.gid()) != (own.uid(), own.gid()) {
            // SAFETY: both numbers are those of a file.
            let (owner, group) = unsafe { (Uid::from_raw(known.uid()), Gid::from_raw(known.gid())) };
            // Who may not give a file away keeps it, and gives it to the group if that is allowed; the permissions stay.
            let _ = fchown(&*file, Some(owner), Some(group)).or_else(|_| fchown(&*file, None, Some(group)));
        }
        file.set_permissions(known.permissions())?;
    }
    file.write_all(bytes)?;
    file.sync_all()
}
