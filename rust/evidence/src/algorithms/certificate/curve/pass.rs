//! The curve from behind a frame to before it.

use super::ends::Curve;
use super::knots::Knot;

/// A frame that the curve passes: what it has even after an empty store, which is never above its ceiling, and its
/// bounds. Where it has no upper end, its most is above every level.
#[derive(Clone, Copy)]
pub struct Passed {
    pub has: u64,
    pub ceiling: u64,
    pub drain: u64,
    pub least: u64,
    pub most: u64,
}

impl Passed {
    /// The charge before it from which its store is full; 0 where it takes nothing over.
    #[inline(always)]
    pub fn gap(self) -> u64 {
        self.ceiling - self.has
    }

    /// What it takes away where it draws so much.
    #[inline(always)]
    fn taken(self, drawn: u64) -> u64 {
        self.drain + drawn
    }
}

impl Curve<'_> {
    /// Counts it from the first level on at which a frame needs more than it has, with nothing behind it.
    #[inline(always)]
    fn widen_down(&mut self, f: Passed) {
        let from = if f.taken(f.least) <= f.has {
            f.has - f.drain + 1
        } else {
            1
        };
        if from < self.low.level && f.has < f.taken(f.most) {
            self.widen_low(from);
        }
    }

    /// Counts it up to the last level at which a frame does not need its ceiling, with a full store behind it.
    #[inline(always)]
    fn widen_up(&mut self, f: Passed) {
        let free = f.ceiling.saturating_sub(self.full);
        if free <= f.taken(f.least) {
            return;
        }
        let last = if free <= f.taken(f.most) {
            self.roof.min(free - f.taken(1))
        } else {
            self.roof
        };
        if self.high.level < last {
            self.widen_high(last);
        }
    }

    /// Adds what a frame draws at the low end, and a knot where its draw begins to grow.
    #[inline(always)]
    fn draw_low(&mut self, f: Passed) {
        let level = self.low.level;
        if level <= f.least {
            self.low = self.low.with(f.taken(f.least), 0);
            if f.least <= self.high.level && f.least < f.most {
                self.knots.insert(Knot::at(f.least, 1));
            }
        } else if level <= f.most {
            self.low = self.low.with(f.taken(level), 1);
        } else {
            self.low = self.low.with(f.taken(f.most), 0);
        }
    }

    /// Adds what a frame draws at the high end, and a knot where its draw stops growing.
    #[inline(always)]
    fn draw_high(&mut self, f: Passed) {
        let level = self.high.level;
        if f.most <= level {
            self.high = self.high.with(f.taken(f.most), 0);
            if self.low.level <= f.most && f.least < f.most {
                self.knots.insert(Knot::at(f.most, u32::MAX));
            }
        } else if f.least <= level {
            self.high = self.high.with(f.taken(level), 1);
        } else {
            self.high = self.high.with(f.taken(f.least), 0);
        }
    }

    /// Takes so much off its first level, and leaves nothing below 0.
    #[inline(always)]
    pub fn spend(&mut self, has: u64) {
        if self.low.height <= has {
            self.narrow_low(has - self.low.height);
        } else {
            self.low.height -= has;
        }
    }

    /// Leaves nothing above what a full store needs, of what is needed beyond what the frame has.
    #[inline(always)]
    fn cut_high(&mut self, f: Passed) {
        if f.ceiling <= self.high.height {
            self.narrow_high(self.high.height - f.ceiling, f.gap());
        } else {
            self.high.height = self.high.height.wrapping_sub(f.has);
        }
    }

    /// Takes the curve from behind a frame to before it.
    #[inline(always)]
    pub fn pass(&mut self, f: Passed) {
        self.widen_down(f);
        self.widen_up(f);
        if !self.is_empty() {
            self.draw_low(f);
            self.draw_high(f);
            self.spend(f.has);
        }
        if !self.is_empty() {
            self.cut_high(f);
        }
        self.full = f.gap();
    }
}
