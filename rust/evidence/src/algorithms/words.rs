//! Word files in two passes without a list of words: one for what is refused, one that reads or writes.

use crate::reference::limits::{MAX_FILE_BYTES, MAX_FRAMES, NO_UPPER_END};
use crate::reference::refusals::refuse_if;
use energy::{Figures, Frames, Header, Refusal};

/// The tags of words, their top three bits; figures, harvests and the end have the next one too.
const HARVEST: u32 = 2;
const LEAST: u32 = 4;
const MOST: u32 = 5;
const END: u32 = 6;

/// The values below a kind, and the amounts below a mark.
const VALUES: u32 = (1 << 30) - 1;
const AMOUNTS: u32 = (1 << 29) - 1;

/// How many figures come first.
const FIGURES: usize = 3;

/// The words of a file, a torn one left out.
fn words(file: &[u8]) -> impl Iterator<Item = u32> + '_ {
    file.chunks_exact(4)
        .map(|bytes| u32::from_le_bytes([bytes[0], bytes[1], bytes[2], bytes[3]]))
}

/// How many words a closed file has, and how many of them are harvests; or the first word that breaks the form.
fn scan(file: &[u8]) -> Result<(usize, usize), usize> {
    let (mut frames, mut lowest) = (0, MOST + 1);
    for (i, word) in words(file).enumerate() {
        match word >> 29 {
            0 | 1 if i < FIGURES => {}
            _ if i < FIGURES => return Err(i),
            2 | 3 => (frames, lowest) = (frames + 1, LEAST),
            mark @ (LEAST | MOST) if lowest <= mark => lowest = mark + 1,
            END | 7 if (word & VALUES) as usize == frames => return Ok((i + 1, frames)),
            _ => return Err(i),
        }
    }
    Err(file.len() / 4)
}

/// What is refused of a file read into lists of such lengths; how many words and frames it has.
fn check(file: &[u8], lengths: [usize; 3]) -> Result<(usize, usize), Refusal> {
    refuse_if(MAX_FILE_BYTES < file.len(), Refusal::TooManyFrames)?;
    let bad = |word: usize| Refusal::BadWord { word: word as u64 };
    let (words, frames) = scan(file).map_err(bad)?;
    refuse_if(4 * words < file.len(), bad(words))?;
    refuse_if(MAX_FRAMES < frames, Refusal::TooManyFrames)?;
    refuse_if(lengths.iter().any(|&length| length < frames), Refusal::WrongLength)?;
    Ok((words, frames))
}

/// Reads a file.
pub fn read(file: &[u8], harvest: &mut [u32], least: &mut [u32], most: &mut [u32]) -> Result<Header, Refusal> {
    let (count, frames) = check(file, [harvest.len(), least.len(), most.len()])?;
    let mut read = 0;
    for word in words(file).take(count - 1).skip(FIGURES) {
        match word >> 29 {
            LEAST => least[read - 1] = word & AMOUNTS,
            MOST => most[read - 1] = word & AMOUNTS,
            _ => {
                harvest[read] = word & VALUES;
                least[read] = 0;
                most[read] = NO_UPPER_END;
                read += 1;
            }
        }
    }
    let mut figures = words(file).map(|word| word & VALUES);
    let mut figure = || figures.next().unwrap_or_default();
    let figures = Figures {
        capacity: figure(),
        start: figure(),
        end: figure(),
    };
    Ok(Header { figures, frames })
}

/// The bytes of a request's file.
pub fn file_bytes(frames: Frames) -> usize {
    let bounds = frames.least.iter().zip(frames.most);
    let words = bounds.map(|(&least, &most)| 1 + usize::from(least != 0) + usize::from(most != NO_UPPER_END));
    4 * (FIGURES + words.sum::<usize>() + 1)
}

/// Words put into a list, one behind the other.
struct Writer<'a> {
    file: &'a mut [u8],
    at: usize,
}

impl Writer<'_> {
    fn put(&mut self, tag: u32, value: u32) {
        let word = tag << 29 | value;
        self.file[self.at..self.at + 4].copy_from_slice(&word.to_le_bytes());
        self.at += 4;
    }
}

/// Writes the file of a request that is not refused, and gives its length.
pub fn write(figures: Figures, frames: Frames, file: &mut [u8]) -> usize {
    let mut writer = Writer { file, at: 0 };
    for figure in [figures.capacity, figures.start, figures.end] {
        writer.put(0, figure);
    }
    for ((&harvest, &least), &most) in frames.harvest.iter().zip(frames.least).zip(frames.most) {
        writer.put(HARVEST, harvest);
        if least != 0 {
            writer.put(LEAST, least);
        }
        if most != NO_UPPER_END {
            writer.put(MOST, most);
        }
    }
    writer.put(END, frames.harvest.len() as u32);
    writer.at
}
