//! Requests as word files, by the proved reader and writer.

use super::sheet::Sheet;
use super::{in_order, too_many, Calendar, Draft, FrameLists, Request};
use crate::failure::Failure;
use crate::files::MOST_BYTES;
use energy::{Frames, Refusal, MAX_FILE_BYTES};

impl Request {
    /// The word file, from the proved writer.
    pub fn word_file(&self) -> Result<Vec<u8>, Failure> {
        energy::write(self.figures, self.frames.lent()).map_err(|refusal| self.refused(refusal))
    }
}

/// Reads a word file.
pub fn from_words(bytes: Vec<u8>, name: String) -> Result<Draft, Failure> {
    let (figures, frames) = energy::read(&bytes)
        .map_err(|refusal| match refusal {
            Refusal::TooManyFrames => too_many_words(&bytes),
            other => other.into(),
        })
        .map_err(|failure: Failure| {
            let why = format!("{name} has a byte 0 and so is no text (a spreadsheet is read as CSV in UTF-8)");
            failure.with(&why)
        })?;
    let Frames { harvest, least, most } = frames.frames();
    Ok(Draft {
        figures: in_order(figures).map(Some),
        frames: FrameLists {
            calendar: Calendar::default(),
            harvest: harvest.to_vec(),
            least: least.to_vec(),
            most: most.to_vec(),
        },
        word_file: Some(bytes),
        name,
        sheet: Sheet::default(),
    })
}

/// The refusal of a word file of too many bytes, or of too many frames.
fn too_many_words(file: &[u8]) -> Failure {
    let sentence = if file.len() > MAX_FILE_BYTES {
        too_many_bytes(file.len())
    } else {
        too_many(frames_of(file), "frame")
    };
    let refusal = Refusal::TooManyFrames;
    Failure::Refused { refusal, sentence }
}

/// That a word file has so many bytes, or more where no more were read.
fn too_many_bytes(bytes: usize) -> String {
    let more = if bytes > MOST_BYTES { "more than " } else { "" };
    let bytes = bytes.min(MOST_BYTES);
    format!("the word file has {more}{bytes} bytes, above the limit of {MAX_FILE_BYTES}")
}

/// The bits of a word that are its value; those above it are its kind.
const WORD_VALUE: u32 = (1 << 30) - 1;

/// The frames of a word file whose form was found good: the value of its end word.
fn frames_of(file: &[u8]) -> usize {
    let end = file
        .rchunks_exact(4)
        .next()
        .map_or([0; 4], |end| [end[0], end[1], end[2], end[3]]);
    (u32::from_le_bytes(end) & WORD_VALUE) as usize
}
