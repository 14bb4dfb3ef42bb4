//! The word file: 32-bit little-endian words, the kind in the top two bits and the value in the low 30. In
//! words of kind 2 the highest bit of the value tells which bound of its frame the rest of it is.

use super::limits::{MAX_FILE_BYTES, MAX_FRAMES, NO_UPPER_END};
use super::refusals::{self, refuse_if};
use energy::{Figures, Frames, Header, Refusal};

/// A word taken apart.
#[derive(Clone, Copy, PartialEq, Eq)]
struct Word {
    kind: u32,
    value: u32,
}

impl Word {
    fn of(bytes: &[u8]) -> Word {
        let word = u32::from_le_bytes(bytes.try_into().expect("a word is four bytes"));
        Word {
            kind: word >> 30,
            value: word & 0x3fff_ffff,
        }
    }

    fn bytes(self) -> [u8; 4] {
        (self.kind << 30 | self.value).to_le_bytes()
    }
}

/// The bit of a word of kind 2 that tells a most from a least; the bits below it are the amount.
const MOST_BIT: u32 = 1 << 29;

/// What a word is in a file.
#[derive(Clone, Copy, PartialEq, Eq)]
enum Part {
    Figure,
    Harvest,
    Least,
    Most,
    End,
}

impl Word {
    /// The part that the word is, and its number.
    fn part(self) -> (Part, u32) {
        match self.kind {
            0 => (Part::Figure, self.value),
            1 => (Part::Harvest, self.value),
            2 if self.value < MOST_BIT => (Part::Least, self.value),
            2 => (Part::Most, self.value - MOST_BIT),
            _ => (Part::End, self.value),
        }
    }
}

/// Whether a part may follow a frame's.
fn follows(before: Part, part: Part) -> bool {
    match part {
        Part::Figure => false,
        Part::Harvest | Part::End => true,
        Part::Least => before == Part::Harvest,
        Part::Most => before == Part::Harvest || before == Part::Least,
    }
}

/// The words of a request's frames: a harvest, then a least that is not 0, then a most that is an upper end.
fn frame_words(frames: Frames) -> Vec<Word> {
    let mut words = Vec::new();
    for (i, &value) in frames.harvest.iter().enumerate() {
        words.push(Word { kind: 1, value });
        let (least, most) = (frames.least[i], frames.most[i]);
        if least != 0 {
            words.push(Word { kind: 2, value: least });
        }
        if most != NO_UPPER_END {
            let value = MOST_BIT | most;
            words.push(Word { kind: 2, value });
        }
    }
    words
}

/// The bytes of a request's file: the words of three figures, of the frames and of their count.
pub fn file_bytes(frames: Frames) -> usize {
    4 * (3 + frame_words(frames).len() + 1)
}

/// Reads a file: its size (2), its form (8), its frames (2), the lent lists (7), and nothing else.
pub fn read(file: &[u8], harvest: &mut [u32], least: &mut [u32], most: &mut [u32]) -> Result<Header, Refusal> {
    refuse_if(file.len() > MAX_FILE_BYTES, Refusal::TooManyFrames)?;
    let chunks = file.chunks_exact(4);
    let torn = !chunks.remainder().is_empty();
    let words: Vec<Word> = chunks.map(Word::of).collect();
    if let Some(word) = broken_word(&words, torn) {
        return Err(Refusal::BadWord { word: word as u64 });
    }
    let listed = &words[3..words.len() - 1];
    let frames = harvests(listed);
    refuse_if(frames > MAX_FRAMES, Refusal::TooManyFrames)?;
    for list in [&harvest, &least, &most] {
        refuse_if(list.len() < frames, Refusal::WrongLength)?;
    }
    let mut read = 0;
    for word in listed {
        match word.part() {
            (Part::Least, amount) => least[read - 1] = amount,
            (Part::Most, amount) => most[read - 1] = amount,
            (_, amount) => {
                harvest[read] = amount;
                least[read] = 0;
                most[read] = NO_UPPER_END;
                read += 1;
            }
        }
    }
    Ok(Header {
        figures: Figures {
            capacity: words[0].value,
            start: words[1].value,
            end: words[2].value,
        },
        frames,
    })
}

/// How many of the words are harvests.
fn harvests(words: &[Word]) -> usize {
    words.iter().filter(|word| word.kind == 1).count()
}

/// The place of the earliest word that breaks the form. A torn last word has the number of whole words before it,
/// as has a word that is missing.
fn broken_word(words: &[Word], torn: bool) -> Option<usize> {
    for (place, word) in words.iter().enumerate() {
        let (part, number) = word.part();
        let fits = match place {
            0..=2 => part == Part::Figure,
            3 => part == Part::Harvest || part == Part::End,
            _ => follows(words[place - 1].part().0, part),
        };
        if !fits || part == Part::End && number as usize != harvests(&words[..place]) {
            return Some(place);
        }
        if part == Part::End {
            let more = torn || place + 1 < words.len();
            return more.then_some(place + 1);
        }
    }
    Some(words.len())
}

/// Writes a file and gives its length: 1, 2, 7 for lists of bounds and for a list too short, 3, 4, 5, 6, 10.
pub fn write(figures: Figures, frames: Frames, file: &mut [u8]) -> Result<usize, Refusal> {
    refusals::write(figures, frames, file.len())?;
    let heads = [figures.capacity, figures.start, figures.end].map(|value| Word { kind: 0, value });
    let last = Word {
        kind: 3,
        value: frames.harvest.len() as u32,
    };
    let words = heads.into_iter().chain(frame_words(frames)).chain([last]);
    for (place, word) in file.chunks_exact_mut(4).zip(words) {
        place.copy_from_slice(&word.bytes());
    }
    Ok(file_bytes(frames))
}
