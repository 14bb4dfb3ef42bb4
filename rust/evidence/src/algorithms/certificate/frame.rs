//! Frames as the theory has them: any inflow, ceiling, drain, least and most. How a request becomes frames is known
//! here alone.

/// The level above every most: nothing more can be drawn than at this one.
pub const TOP: u64 = u32::MAX as u64;

/// A frame: what comes in, what it can hold, what is drained, and the bounds of its budget.
#[derive(Clone, Copy, Debug, PartialEq, Eq)]
pub struct Frame {
    pub inflow: u64,
    pub ceiling: u64,
    pub drain: u64,
    pub least: u64,
    pub most: u64,
}

impl Frame {
    /// What the frame can spend or carry on, from a carried charge.
    #[inline(always)]
    pub fn room(&self, charge: u64) -> u64 {
        self.ceiling.min(charge + self.inflow)
    }

    /// What the frame takes at a level.
    #[inline(always)]
    pub fn draw(&self, level: u64) -> u64 {
        self.least.max(self.most.min(level))
    }

    /// The charge before the frame from which its store is full.
    #[inline(always)]
    pub fn gap(&self) -> u64 {
        self.ceiling.saturating_sub(self.inflow)
    }
}

/// The frames of a request, with the charges before the first and after the last.
pub trait Frames {
    fn start(&self) -> u64;
    fn end(&self) -> u64;
    fn count(&self) -> usize;
    fn at(&self, i: usize) -> Frame;
    /// The most of a frame; the top where it has no upper end.
    fn upper_end(&self, i: usize) -> u64;
    /// All that there is: no budget is above it.
    fn energy(&self) -> u64;
}

/// Document 01's frames: the harvest comes on top of the capacity, and no budget is above `energy`, all that there is.
#[derive(Clone, Copy, Debug)]
pub struct Plain<'a> {
    pub capacity: u64,
    pub start: u64,
    pub end: u64,
    pub energy: u64,
    pub harvest: &'a [u32],
}

impl<'a> Plain<'a> {
    /// The frames of a request of document 01.
    pub fn new(capacity: u64, start: u64, end: u64, harvest: &'a [u32]) -> Plain<'a> {
        let energy = start + harvest.iter().map(|&h| u64::from(h)).sum::<u64>();
        Plain {
            capacity,
            start,
            end,
            energy,
            harvest,
        }
    }
}

impl Frames for Plain<'_> {
    #[inline(always)]
    fn start(&self) -> u64 {
        self.start
    }

    #[inline(always)]
    fn end(&self) -> u64 {
        self.end
    }

    #[inline(always)]
    fn count(&self) -> usize {
        self.harvest.len()
    }

    #[inline(always)]
    fn at(&self, i: usize) -> Frame {
        let inflow = u64::from(self.harvest[i]);
        Frame {
            inflow,
            ceiling: self.capacity + inflow,
            drain: 0,
            least: 0,
            most: self.energy,
        }
    }

    #[inline(always)]
    fn upper_end(&self, _: usize) -> u64 {
        TOP
    }

    fn energy(&self) -> u64 {
        self.energy
    }
}

/// Frames with leasts and mosts, lists as long as the harvest: `Plain` frames but for the bounds of their budgets.
#[derive(Clone, Copy, Debug)]
pub struct Bounded<'a> {
    pub plain: Plain<'a>,
    pub least: &'a [u32],
    pub most: &'a [u32],
}

/// The most that stands for no upper end.
pub const NO_UPPER_END: u32 = u32::MAX;

impl Frames for Bounded<'_> {
    #[inline(always)]
    fn start(&self) -> u64 {
        self.plain.start
    }

    #[inline(always)]
    fn end(&self) -> u64 {
        self.plain.end
    }

    #[inline(always)]
    fn count(&self) -> usize {
        self.plain.count()
    }

    #[inline(always)]
    fn at(&self, i: usize) -> Frame {
        let frame = self.plain.at(i);
        Frame {
            least: u64::from(self.least[i]),
            most: match self.most[i] {
                NO_UPPER_END => frame.most,
                most => u64::from(most),
            },
            ..frame
        }
    }

    #[inline(always)]
    fn upper_end(&self, i: usize) -> u64 {
        u64::from(self.most[i])
    }

    fn energy(&self) -> u64 {
        self.plain.energy()
    }
}

/// Frames listed one by one.
#[derive(Clone, Debug)]
pub struct Listed {
    pub start: u64,
    pub end: u64,
    pub frames: Vec<Frame>,
}

impl Frames for Listed {
    fn start(&self) -> u64 {
        self.start
    }

    fn end(&self) -> u64 {
        self.end
    }

    fn count(&self) -> usize {
        self.frames.len()
    }

    fn at(&self, i: usize) -> Frame {
        self.frames[i]
    }

    fn upper_end(&self, i: usize) -> u64 {
        self.frames[i].most
    }

    fn energy(&self) -> u64 {
        self.start + self.frames.iter().map(|f| f.inflow).sum::<u64>()
    }
}
