//! The lists of a request, kept: what `energy::Frames` lends.

use crate::reference::limits::NO_UPPER_END;
use energy::Frames;

/// The harvests, leasts and mosts of a request; each list may have a wrong length.
#[derive(Clone, Debug, Default, PartialEq, Eq)]
pub struct Lists {
    pub harvest: Vec<u32>,
    pub least: Vec<u32>,
    pub most: Vec<u32>,
}

impl Lists {
    /// Frames without bounds, however many.
    pub fn unbounded(harvest: Vec<u32>) -> Lists {
        Lists {
            least: vec![0; harvest.len()],
            most: vec![NO_UPPER_END; harvest.len()],
            harvest,
        }
    }

    /// The number of frames.
    pub fn count(&self) -> usize {
        self.harvest.len()
    }

    /// The lists as they are lent.
    pub fn frames(&self) -> Frames<'_> {
        Frames {
            harvest: &self.harvest,
            least: &self.least,
            most: &self.most,
        }
    }
}
