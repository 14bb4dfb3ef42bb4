//! Word files and listings by the linked library, with lists, bytes and texts that the answer owns.

use crate::answers::Figures;
use crate::frames::{Frames, OwnedFrames};
use crate::interface::Energy;
use crate::linked::Linked;
use crate::refusal::Refusal;
use crate::{LISTING_BYTES, MAX_FILE_BYTES, MAX_FRAMES};

/// The request that a word file holds. Its form alone is checked: what it says may still be refused.
///
/// ```
/// use energy::{Figures, Frame};
///
/// let figures = Figures { capacity: 5, start: 2, end: 2 };
/// let frames: energy::OwnedFrames = [6, 4].map(Frame::unbounded).into_iter().collect();
/// let file = energy::write(figures, frames.frames())?;
/// assert_eq!(energy::read(&file)?, (figures, frames));
/// # Ok::<(), energy::Refusal>(())
/// ```
///
/// # Errors
///
/// Refused by 2 (the size of the file), 8 or 2 (its frames), the numbers of [`Refusal`]: the first that holds.
pub fn read(file: &[u8]) -> Result<(Figures, OwnedFrames), Refusal> {
    let [mut harvest, mut least, mut most] = [(); 3].map(|()| vec![0; MAX_FRAMES]);
    let read = Linked.read(file, &mut harvest, &mut least, &mut most)?;
    let [harvest, least, most] = [harvest, least, most].map(|list| list[..read.frames].to_vec());
    Ok((read.figures, OwnedFrames::of_lists(harvest, least, most)))
}

/// The word file of a request.
///
/// ```
/// use energy::{Figures, Frames};
///
/// let figures = Figures { capacity: 5, start: 2, end: 2 };
/// let file = energy::write(figures, Frames::unbounded(&[6, 4]))?;
/// assert_eq!(file.len(), 24);
/// # Ok::<(), energy::Refusal>(())
/// ```
///
/// # Errors
///
/// Refused by 1, 2, 7, 3, 4, 5, 6 or 10, the numbers of [`Refusal`]: the first that holds. A request out of reach is written
/// too.
pub fn write(figures: Figures, frames: Frames<'_>) -> Result<Vec<u8>, Refusal> {
    let mut file = vec![0; MAX_FILE_BYTES];
    let bytes = Linked.write(figures, frames, &mut file)?;
    Ok(file[..bytes].to_vec())
}

/// What the plan program prints for a word file: the lines of its plan, or the [line](Refusal::line) of its refusal, with a
/// line feed behind every line.
///
/// ```
/// use energy::{Figures, Frames};
///
/// let figures = Figures { capacity: 5, start: 2, end: 2 };
/// let file = energy::write(figures, Frames::unbounded(&[6, 4]))?;
/// assert_eq!(energy::listing(&file), "frames 2 capacity 5 needed 3\n1 5 3 0\n2 5 2 0\nworth 160 240 50\n");
/// assert_eq!(energy::listing(&[]), "refused 8 0\n");
/// # Ok::<(), energy::Refusal>(())
/// ```
pub fn listing(file: &[u8]) -> String {
    let mut text = vec![0; LISTING_BYTES];
    let bytes = Linked.listing(file, &mut text);
    text.truncate(bytes);
    String::from_utf8(text).expect("a listing is ASCII")
}
