//! What the plan program prints for a word file.

use super::limits::MAX_FRAMES;
use energy::{Energy, Frames, Refusal};

/// The text of a file's plan, by the calls of an implementation.
fn text_of(energy: &dyn Energy, file: &[u8]) -> Result<String, Refusal> {
    let [mut harvest, mut least, mut most] = [[0; MAX_FRAMES]; 3];
    let read = energy.read(file, &mut harvest, &mut least, &mut most)?;
    let (figures, count) = (read.figures, read.frames);
    let frames = Frames {
        harvest: &harvest[..count],
        least: &least[..count],
        most: &most[..count],
    };
    let mut budgets = vec![0; count];
    energy.plan(figures, frames, &mut budgets)?;
    let needed = energy.needed(figures, frames)?;
    let (mut charges, mut losses) = (vec![0; count], vec![0; count]);
    energy.trace(figures, frames.harvest, &budgets, &mut charges, &mut losses)?;
    let [a, b, c] = energy.grade(&budgets)?;
    let mut text = format!("frames {count} capacity {} needed {needed}\n", figures.capacity);
    for (i, ((budget, charge), loss)) in budgets.iter().zip(&charges).zip(&losses).enumerate() {
        text += &format!("{} {budget} {charge} {loss}\n", i + 1);
    }
    text += &format!("worth {a} {b} {c}\n");
    Ok(text)
}

/// Writes the text, or the refusal, as far as there is room, and gives the number of bytes.
pub fn listing(energy: &dyn Energy, file: &[u8], text: &mut [u8]) -> usize {
    let whole = text_of(energy, file).unwrap_or_else(|refusal| refusal.line() + "\n");
    let bytes = whole.len().min(text.len());
    text[..bytes].copy_from_slice(&whole.as_bytes()[..bytes]);
    bytes
}
