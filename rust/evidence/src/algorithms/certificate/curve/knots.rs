//! Knots: levels at which the growth of a curve changes. They stand in rising order in a part of a list that grows and
//! shrinks at both ends; where an end of the list is reached, knots are lost, and the guess may be wrong then.

/// How many places there are for each frame: two at either side of the middle, where the knots begin. A frame bends the
/// curve twice, by one each time, and an end that was cut off comes back with no more knots than there were bends
/// beyond it.
const PLACES: usize = 4;

/// A level, and the change of the growth there, modulo 2^32.
#[derive(Clone, Copy, Default)]
pub struct Knot {
    place: u32,
    bend: u32,
}

impl Knot {
    /// The knot at a level.
    #[inline(always)]
    pub fn at(level: u64, bend: u32) -> Knot {
        Knot {
            place: level as u32,
            bend,
        }
    }

    /// Its level.
    #[inline(always)]
    pub fn level(self) -> u64 {
        self.place.into()
    }

    /// The growth above it, from that below it.
    #[inline(always)]
    pub fn above(self, step: u32) -> u32 {
        step.wrapping_add(self.bend)
    }

    /// The growth below it, from that above it.
    #[inline(always)]
    pub fn below(self, step: u32) -> u32 {
        step.wrapping_sub(self.bend)
    }
}

/// The knots are list[first..end]; so many found no place in the list.
pub struct Knots {
    pub list: Vec<Knot>,
    pub first: usize,
    pub end: usize,
    pub lost: u64,
}

impl Knots {
    /// No knots, and room for those of so many frames.
    pub fn for_frames(frames: usize) -> Knots {
        Knots {
            list: vec![Knot::default(); PLACES * frames],
            first: 0,
            end: 0,
            lost: 0,
        }
    }

    /// Leaves no knot; new ones are to stand around the middle of the list.
    #[inline(always)]
    pub fn clear(&mut self) {
        self.first = self.list.len() / 2;
        self.end = self.first;
    }

    /// Puts a knot before all others, if it bends anything.
    #[inline(always)]
    pub fn put_first(&mut self, knot: Knot) {
        if knot.bend == 0 {
            return;
        }
        if self.first == 0 {
            self.lost += 1;
            return;
        }
        self.first -= 1;
        self.list[self.first] = knot;
    }

    /// Puts a knot behind all others, if it bends anything.
    #[inline(always)]
    pub fn put_last(&mut self, knot: Knot) {
        if knot.bend == 0 {
            return;
        }
        if self.end == self.list.len() {
            self.lost += 1;
            return;
        }
        self.list[self.end] = knot;
        self.end += 1;
    }

    /// Puts a knot among the others, from the nearer end.
    #[inline(always)]
    pub fn insert(&mut self, knot: Knot) {
        if self.first == 0 || self.end == self.list.len() {
            self.lost += 1;
            return;
        }
        if knot.place < self.list[(self.first + self.end) / 2].place {
            self.insert_from_first(knot);
        } else {
            self.insert_from_end(knot);
        }
    }

    /// Puts a knot before all that are not below it; the others go down by one place, four at a time as long as four
    /// do.
    #[inline(always)]
    fn insert_from_first(&mut self, knot: Knot) {
        let Knots { list, first, end, .. } = self;
        let mut i = *first;
        while i + 4 <= *end && list[i + 3].place < knot.place {
            let four: [Knot; 4] = list[i..i + 4].try_into().expect("four knots");
            list[i - 1..i + 3].copy_from_slice(&four);
            i += 4;
        }
        while i < *end && list[i].place < knot.place {
            list[i - 1] = list[i];
            i += 1;
        }
        list[i - 1] = knot;
        *first -= 1;
    }

    /// Puts a knot behind all that are not above it; the others go up by one place, four at a time as long as four do.
    #[inline(always)]
    fn insert_from_end(&mut self, knot: Knot) {
        let Knots { list, first, end, .. } = self;
        let mut i = *end;
        while *first + 4 <= i && knot.place < list[i - 4].place {
            let four: [Knot; 4] = list[i - 4..i].try_into().expect("four knots");
            list[i - 3..=i].copy_from_slice(&four);
            i -= 4;
        }
        while *first < i && knot.place < list[i - 1].place {
            list[i] = list[i - 1];
            i -= 1;
        }
        list[i] = knot;
        *end += 1;
    }
}
