//! The frames of a request: one, the lists of all as they are lent, and those lists kept.

use crate::{MAX_FRAMES, NO_UPPER_END};
use std::iter::FusedIterator;

/// A frame: its harvest, and the least and the most that its budget may be, in watt-hours.
///
/// A least of `Some(0)` and a most of `Some(u32::MAX)` ([`NO_UPPER_END`]) are bounds that no budget misses. In the lists they
/// stand for the absent ones; so they are given back as `None`. Any other bound above [`MAX_BOUND`](crate::MAX_BOUND) is
/// refused by 10 ([`BadBounds`](crate::Refusal::BadBounds)).
#[derive(Clone, Copy, Debug, Default, PartialEq, Eq, Hash)]
pub struct Frame {
    /// What the sun gives.
    pub harvest: u32,
    /// The least budget, if the frame has one.
    pub least: Option<u32>,
    /// The most budget, if the frame has one.
    pub most: Option<u32>,
}

impl Frame {
    /// A frame without bounds.
    pub const fn unbounded(harvest: u32) -> Frame {
        Frame {
            harvest,
            least: None,
            most: None,
        }
    }
}

/// The frames of a request as they are lent: three lists, an entry for each frame. Lists of different lengths are refused by
/// 7 ([`WrongLength`](crate::Refusal::WrongLength)).
#[derive(Clone, Copy, Debug, Default, PartialEq, Eq, Hash)]
pub struct Frames<'a> {
    /// What the sun gives.
    pub harvest: &'a [u32],
    /// The least budgets, 0 for none.
    pub least: &'a [u32],
    /// The most budgets, [`NO_UPPER_END`] for none.
    pub most: &'a [u32],
}

impl<'a> Frames<'a> {
    /// Frames without bounds. More than [`MAX_FRAMES`] harvests have too few entries beside them and are refused by 2 all the
    /// same ([`TooManyFrames`](crate::Refusal::TooManyFrames)).
    pub fn unbounded(harvest: &'a [u32]) -> Frames<'a> {
        static LEAST: [u32; MAX_FRAMES] = [0; MAX_FRAMES];
        static MOST: [u32; MAX_FRAMES] = [NO_UPPER_END; MAX_FRAMES];
        let frames = harvest.len().min(MAX_FRAMES);
        Frames {
            harvest,
            least: &LEAST[..frames],
            most: &MOST[..frames],
        }
    }

    /// The frames one by one, as many as the shortest list has.
    pub fn iter(self) -> FrameIter<'a> {
        FrameIter { left: self }
    }
}

impl<'a> IntoIterator for Frames<'a> {
    type Item = Frame;
    type IntoIter = FrameIter<'a>;

    fn into_iter(self) -> FrameIter<'a> {
        self.iter()
    }
}

/// The frames of [`Frames`] one by one.
#[derive(Clone, Debug)]
pub struct FrameIter<'a> {
    left: Frames<'a>,
}

impl Iterator for FrameIter<'_> {
    type Item = Frame;

    fn next(&mut self) -> Option<Frame> {
        let (&harvest, harvests) = self.left.harvest.split_first()?;
        let (&least, leasts) = self.left.least.split_first()?;
        let (&most, mosts) = self.left.most.split_first()?;
        self.left = Frames {
            harvest: harvests,
            least: leasts,
            most: mosts,
        };
        Some(Frame {
            harvest,
            least: (least != 0).then_some(least),
            most: (most != NO_UPPER_END).then_some(most),
        })
    }

    fn size_hint(&self) -> (usize, Option<usize>) {
        let Frames { harvest, least, most } = self.left;
        let left = harvest.len().min(least.len()).min(most.len());
        (left, Some(left))
    }
}

impl ExactSizeIterator for FrameIter<'_> {}
impl FusedIterator for FrameIter<'_> {}

/// The frames of a request, kept: [`frames`](OwnedFrames::frames) lends them. It is made of any iterator of [`Frame`], and
/// keeps what it is given, however many.
///
/// ```
/// use energy::{Frame, OwnedFrames};
///
/// let kept: OwnedFrames = [6, 4, 0].map(Frame::unbounded).into_iter().collect();
/// assert_eq!(kept.frames().harvest, [6, 4, 0]);
/// assert_eq!(kept.iter().nth(1), Some(Frame::unbounded(4)));
/// ```
#[derive(Clone, Debug, Default, PartialEq, Eq, Hash)]
pub struct OwnedFrames {
    harvest: Vec<u32>,
    least: Vec<u32>,
    most: Vec<u32>,
}

impl OwnedFrames {
    /// From lists of one length.
    pub(crate) fn of_lists(harvest: Vec<u32>, least: Vec<u32>, most: Vec<u32>) -> OwnedFrames {
        OwnedFrames { harvest, least, most }
    }

    /// The lists, lent.
    pub fn frames(&self) -> Frames<'_> {
        Frames {
            harvest: &self.harvest,
            least: &self.least,
            most: &self.most,
        }
    }

    /// The frames one by one.
    pub fn iter(&self) -> FrameIter<'_> {
        self.frames().iter()
    }

    /// The number of frames.
    pub fn len(&self) -> usize {
        self.harvest.len()
    }

    /// Whether there are none.
    pub fn is_empty(&self) -> bool {
        self.harvest.is_empty()
    }
}

impl Extend<Frame> for OwnedFrames {
    fn extend<I: IntoIterator<Item = Frame>>(&mut self, frames: I) {
        for frame in frames {
            self.harvest.push(frame.harvest);
            self.least.push(frame.least.unwrap_or(0));
            self.most.push(frame.most.unwrap_or(NO_UPPER_END));
        }
    }
}

impl FromIterator<Frame> for OwnedFrames {
    fn from_iter<I: IntoIterator<Item = Frame>>(frames: I) -> OwnedFrames {
        let mut kept = OwnedFrames::default();
        kept.extend(frames);
        kept
    }
}

impl<'a> IntoIterator for &'a OwnedFrames {
    type Item = Frame;
    type IntoIter = FrameIter<'a>;

    fn into_iter(self) -> FrameIter<'a> {
        self.iter()
    }
}
