//! The curve, and its two ends moved outward over levels at which it stays the same, or inward over those that are cut
//! off.

use super::knots::{Knot, Knots};

/// An end of the curve: its level, what is reserved or needed there, and by how much that grows for a level between it
/// and the next knot, modulo 2^32.
#[derive(Clone, Copy)]
pub struct End {
    pub level: u64,
    pub height: u64,
    pub step: u32,
}

impl End {
    /// The same with what is needed besides, which grows by so much.
    #[inline(always)]
    pub fn with(self, need: u64, step: u32) -> End {
        End {
            level: self.level,
            height: self.height.wrapping_add(need),
            step: self.step.wrapping_add(step),
        }
    }

    /// By how much it grows over a distance.
    #[inline(always)]
    fn growth(self, distance: u64) -> u64 {
        u64::from(self.step) * u64::from(distance as u32)
    }
}

/// The curve is 0 below its low end and `full` above its high one. Its knots are at levels from one end to the other,
/// both included. Where no level is between, the high end's is just below the low one's, and neither the knots nor what
/// else the ends have say anything. Level 0 is never counted and taken for one below the low end: no level is lower, so
/// nobody asks for the reserve there. No level is above the roof.
pub struct Curve<'a> {
    pub roof: u64,
    pub full: u64,
    pub low: End,
    pub high: End,
    pub knots: &'a mut Knots,
}

impl<'a> Curve<'a> {
    /// The curve behind the last frame: the end charge at every level.
    pub fn at_end(end: u64, full: u64, roof: u64, knots: &'a mut Knots) -> Curve<'a> {
        knots.clear();
        let low = End {
            level: 1,
            height: end,
            step: 0,
        };
        let high = End { level: roof, ..low };
        let mut curve = Curve {
            roof,
            full,
            low,
            high,
            knots,
        };
        if end == 0 {
            curve.vanish();
        }
        curve
    }

    /// Makes it 0 at every level.
    #[inline(always)]
    pub fn vanish(&mut self) {
        self.low.level = self.roof + 1;
        self.high.level = self.roof;
    }

    /// Whether no level lies between its ends.
    #[inline(always)]
    pub fn is_empty(&self) -> bool {
        self.high.level < self.low.level
    }

    /// The last level at which it is 0.
    #[inline(always)]
    pub fn last_empty(&self) -> u64 {
        self.low.level - 1
    }

    /// Keeps by knots where it leaves 0, in one level, and where it goes on from there; gives its growth above a lower
    /// level.
    #[inline(always)]
    fn keep_low(&mut self, level: u64) -> u32 {
        let start = self.low.height as u32;
        let bend = self.low.step.wrapping_sub(start);
        self.knots.put_first(Knot::at(self.low.level, bend));
        let before = self.last_empty();
        if level < before {
            self.knots.put_first(Knot::at(before, start));
            return 0;
        }
        start
    }

    /// Counts it from a lower level on.
    #[inline(always)]
    pub fn widen_low(&mut self, level: u64) {
        let step = if self.is_empty() {
            self.knots.clear();
            self.high.height = 0;
            self.high.step = 0;
            0
        } else {
            self.keep_low(level)
        };
        self.low = End { level, height: 0, step };
    }

    /// Keeps by knots up to where it goes, and where it becomes full, in one level; gives its growth below a higher
    /// level.
    #[inline(always)]
    fn keep_high(&mut self, level: u64) -> u32 {
        let rest = self.full.wrapping_sub(self.high.height) as u32;
        let bend = rest.wrapping_sub(self.high.step);
        self.knots.put_last(Knot::at(self.high.level, bend));
        let next = self.high.level + 1;
        if next < level {
            self.knots.put_last(Knot::at(next, rest.wrapping_neg()));
            return 0;
        }
        rest
    }

    /// Counts it up to a higher level.
    #[inline(always)]
    pub fn widen_high(&mut self, level: u64) {
        let step = if self.is_empty() {
            self.knots.clear();
            self.low.height = self.full;
            self.low.step = 0;
            0
        } else {
            self.keep_high(level)
        };
        self.high = End {
            level,
            height: self.full,
            step,
        };
    }

    /// Begins it behind the last level that needs no more than there is. At a level as much as the height is left, and
    /// up to knot i, or to the last level where there is none, the need grows by the step.
    #[inline(always)]
    fn begin(&mut self, i: usize, at: End) {
        let left = at.height as u32;
        self.low = End {
            level: at.level + u64::from(left / at.step) + 1,
            height: u64::from(at.step - left % at.step),
            step: at.step,
        };
        self.knots.first = i;
    }

    /// Leaves out the levels that need no more than there is, of which `spare` is left at its first level.
    #[inline(always)]
    pub fn narrow_low(&mut self, spare: u64) {
        let mut at = End {
            height: spare,
            ..self.low
        };
        let mut i = self.knots.first;
        while i < self.knots.end {
            let next = self.knots.list[i];
            let rise = at.growth(next.level() - at.level);
            if at.height < rise {
                return self.begin(i, at);
            }
            at = End {
                level: next.level(),
                height: at.height - rise,
                step: next.above(at.step),
            };
            i += 1;
        }
        if at.height < at.growth(self.high.level - at.level) {
            return self.begin(i, at);
        }
        self.low.level = self.high.level + 1;
    }

    /// Ends it at the last level that needs less than the ceiling, at which `full` would be reserved. At a level the
    /// need is by the height above the ceiling, and down to knot i - 1, or to the first level where there is none, it
    /// falls by the step.
    #[inline(always)]
    fn finish(&mut self, i: usize, at: End, full: u64) {
        let above = at.height as u32;
        self.high = End {
            level: at.level - u64::from(above / at.step) - 1,
            height: full.wrapping_sub(u64::from(at.step - above % at.step)),
            step: at.step,
        };
        self.knots.end = i;
    }

    /// Leaves out the levels that need the ceiling, at which `full` would be reserved; its last level needs `excess`
    /// more.
    #[inline(always)]
    pub fn narrow_high(&mut self, excess: u64, full: u64) {
        let mut at = End {
            height: excess,
            ..self.high
        };
        let mut i = self.knots.end;
        while self.knots.first < i {
            let next = self.knots.list[i - 1];
            let fall = at.growth(at.level - next.level());
            if at.height < fall {
                return self.finish(i, at, full);
            }
            at = End {
                level: next.level(),
                height: at.height - fall,
                step: next.below(at.step),
            };
            i -= 1;
        }
        if at.height < at.growth(at.level - self.low.level) {
            return self.finish(i, at, full);
        }
        self.high.level = self.last_empty();
    }
}
