//! A shift's journal: the calls that were accepted, and nothing else. The shift is what the proved entries make of them.

mod call;
mod lock;
mod running;
mod seal;

pub use call::Call;
pub use running::Running;

use crate::failure::Failure;
use crate::files::{self, folder_of, Place, MOST_BYTES};
use crate::kinds::JOURNAL_BEGINNING;
use crate::names::printed;
use crate::request::{quoted, Fault, Request};
use crate::temporary::remove_left;
use seal::{written, Seal};
use std::fs::{self, File};
use std::io::{self, Read, Seek, SeekFrom, Write};
use std::path::{Path, PathBuf};

/// A journal that is locked until it is dropped, and the shift that its calls lead to.
pub struct Journal {
    file: File,
    path: PathBuf,
    pub running: Running,
    seal: Seal,
    /// The bytes of its whole lines.
    length: u64,
    /// The last of these lacks nothing but its line end.
    unended: bool,
    /// The number of a torn last line, which was never answered.
    torn: Option<usize>,
}

/// Refuses an output, standard output if none is named, that is the journal of a shift, whichever.
pub fn refuse_as_output(output: Option<&Path>) -> Result<(), Failure> {
    if !files::output_begins_with(output, JOURNAL_BEGINNING) {
        return Ok(());
    }
    let name = output.map_or("standard output".into(), printed);
    Err(Failure::Fault(format!(
        "gomzhiva: {name}: an output that is no shift's journal is expected; nothing is written"
    )))
}

/// What a journal is opened for.
#[derive(Clone, Copy, PartialEq, Eq)]
pub enum Purpose {
    Look,
    Record,
}

impl Journal {
    /// Starts a shift in a new journal.
    pub fn start(place: &Place, request: Request) -> Result<Running, Failure> {
        let path = file_of(place)?;
        let running = Running::start(request.clone()).map_err(|refusal| request.refused(refusal))?;
        if let Ok(there) = fs::metadata(path) {
            lock::refuse_irregular(path, &there)?;
        }
        let (line, _) = Seal::default().close(&Call::Start(request).to_string());
        files::create(path, line.as_bytes()).map_err(|error| not_created(path, &error))?;
        Ok(running)
    }

    /// Opens and locks a journal, and runs its calls again.
    pub fn open(place: &Place, purpose: Purpose) -> Result<Journal, Failure> {
        let path = file_of(place)?;
        let file = lock::locked(path, purpose)?;
        let bytes = read(&file).map_err(|error| Failure::system(printed(path), &error))?;
        let mut lines = bytes.split_inclusive(|&b| b == b'\n').zip(1..);
        let (first, mut last) = lines.next().unwrap_or((b"", 1));
        let mut journal = Journal::begun(path, file, first)?;
        for (line, number) in lines {
            journal.run_again(line, number)?;
            last = number;
        }
        // No journal has so many bytes, and what was not read may be anything.
        if bytes.len() > MOST_BYTES {
            let found = format!("more than {MOST_BYTES} bytes");
            return Err(fault(path, last, "the end of the journal", found));
        }
        Ok(journal)
    }

    /// The journal of a file as far as its first line.
    fn begun(path: &Path, file: File, first: &[u8]) -> Result<Journal, Failure> {
        let (running, seal) = first_line(path, first)?;
        let mut journal = Journal {
            file,
            path: path.to_path_buf(),
            running,
            seal,
            length: 0,
            unended: false,
            torn: None,
        };
        journal.keep(first);
        Ok(journal)
    }

    /// Unlocks the journal, and gives the shift that its calls lead to.
    pub fn close(self) -> Running {
        self.running
    }

    /// Counts a whole line.
    fn keep(&mut self, line: &[u8]) {
        self.length += written(line).len() as u64;
        self.unended = !line.ends_with(b"\n");
    }

    /// Runs the call of a line again.
    fn run_again(&mut self, line: &[u8], number: usize) -> Result<(), Failure> {
        match self.seal.open(line) {
            Some((call, seal)) => {
                let accepted = match Call::parse(call) {
                    Some(Call::Record { harvest, used }) => self.running.record(harvest, used).is_ok(),
                    _ => false,
                };
                if !accepted {
                    return Err(damaged(&self.path, number, "a recording that is accepted", line));
                }
                self.seal = seal;
                self.keep(line);
            }
            None if self.is_torn(line) => self.torn = Some(number),
            None if is_saved_with_cr(&self.seal, line) => return Err(saved_with_cr(&self.path, number)),
            None => return Err(damaged(&self.path, number, "a whole line as it was written", line)),
        }
        Ok(())
    }

    /// A recording whose writing was cut off.
    fn is_torn(&self, line: &[u8]) -> bool {
        !line.ends_with(b"\n") && self.seal.torn(line).map_or(false, Call::begins_recording)
    }

    /// Records a frame: the call is accepted, then written and synced, and only then the shift goes on. After a refused call,
    /// or one that cannot be written, the whole lines are those that were.
    pub fn record(&mut self, harvest: u32, used: u32) -> Result<(), Failure> {
        let mut running = self.running.clone();
        let recorded = running.record(harvest, used);
        recorded.map_err(|refusal| self.running.refused(refusal, harvest))?;
        let (line, seal) = self.seal.close(&Call::Record { harvest, used }.to_string());
        let ended = if self.unended { format!("\n{line}") } else { line };
        if let Err(error) = self.append(ended.as_bytes()) {
            let failure = Failure::system(printed(&self.path), &error);
            return Err(match self.file.set_len(self.length) {
                Ok(()) => failure,
                Err(_) => failure.with("the frame may be recorded all the same: `shift show` tells"),
            });
        }
        self.running = running;
        self.seal = seal;
        self.length += ended.len() as u64;
        self.unended = false;
        Ok(())
    }

    /// Puts a line behind the whole lines, in place of a torn one, and syncs it; then removes what killed runs left beside it.
    fn append(&mut self, line: &[u8]) -> io::Result<()> {
        self.file.set_len(self.length)?;
        self.file.seek(SeekFrom::Start(self.length))?;
        self.file.write_all(line)?;
        self.file.sync_all()?;
        remove_left(folder_of(&self.path));
        Ok(())
    }

    /// What to tell about a torn line.
    pub fn notice(&self) -> Option<String> {
        let number = self.torn?;
        let name = printed(&self.path);
        Some(format!(
            "{name}:{number}:1: left out a torn last line: its recording was never answered"
        ))
    }
}

/// A journal is a file, since it is locked and looked at again.
fn file_of(place: &Place) -> Result<&Path, Failure> {
    let expected = "gomzhiva: the name of a file is expected as a journal, found";
    let fault = || Failure::Fault(format!("{expected} {}", quoted(&place.given())));
    place.file().ok_or_else(fault)
}

/// The failure of a journal that could not be made.
fn not_created(path: &Path, error: &io::Error) -> Failure {
    let failure = Failure::system(printed(path), error);
    if error.kind() == io::ErrorKind::AlreadyExists && fs::symlink_metadata(path).is_ok() {
        failure.with("nothing is started, since a shift needs a new journal")
    } else {
        failure
    }
}

fn read(file: &File) -> io::Result<Vec<u8>> {
    let mut bytes = Vec::new();
    file.take(files::READ_BYTES).read_to_end(&mut bytes)?;
    Ok(bytes)
}

/// The shift that a journal's first line starts.
fn first_line(path: &Path, line: &[u8]) -> Result<(Running, Seal), Failure> {
    let opened = Seal::default().open(line);
    match opened.and_then(|(text, seal)| Some((Call::parse(text)?, seal))) {
        Some((Call::Start(request), seal)) => {
            let why = format!("{} starts such a shift, and stays as it is", printed(path));
            let running = Running::start(request.clone()).map_err(|refusal| request.refused(refusal).with(&why))?;
            Ok((running, seal))
        }
        _ if is_saved_with_cr(&Seal::default(), line) => Err(saved_with_cr(path, 1)),
        _ => Err(damaged(path, 1, "the start of a shift, as a journal begins,", line)),
    }
}

/// Whether a line opens but for the CR before its LF.
fn is_saved_with_cr(seal: &Seal, line: &[u8]) -> bool {
    let as_written = |line: &[u8]| [line, b"\n"].concat();
    let line = line.strip_suffix(b"\r\n").map(as_written);
    line.map_or(false, |line| seal.open(&line).is_some())
}

/// The failure of a journal that an editor saved in its own way.
fn saved_with_cr(path: &Path, line: usize) -> Failure {
    let found = "CR LF, with which an editor of another system saved it (`tr -d '\\r'` removes the CRs)";
    fault(path, line, "LF, in which a journal's lines end,", found.to_string())
}

/// The failure of a journal that is not as it was written; nothing of it is changed.
fn damaged(path: &Path, line: usize, expected: &str, found: &[u8]) -> Failure {
    let found = match String::from_utf8_lossy(found).trim_end_matches('\n') {
        "" => "nothing".to_string(),
        text => quoted(text),
    };
    fault(path, line, expected, found)
}

/// The fault of a line.
fn fault(path: &Path, line: usize, expected: &str, found: String) -> Failure {
    let fault = Fault {
        line,
        column: 1,
        expected: expected.to_string(),
        found,
    };
    fault.of(&printed(path))
}
