//! What the steps of a call take: instructions of each, and how often a harvest is read.

pub mod paid;
pub mod reads;
mod twice;

/// Makes the counted calls of a name, where there is one.
pub fn play(name: &str) -> bool {
    match name {
        paid::PLAYED => paid::play(),
        reads::PLAYED => reads::play(),
        _ => return false,
    }
    true
}
