//! Families of harvests and capacities, with bounds or without, for tests and benchmarks.

use crate::algorithms::certificate;
use crate::bounds::{around, Kind};
use crate::lists::Lists;
use crate::random::Random;
use crate::reference::limits::{MAX_CAPACITY, MAX_FRAMES};
use energy::Figures;

/// The numbers of frames of large requests: a day, half a week and a week of quarter hours, which is the most.
pub const FRAMES: [usize; 3] = [96, 336, MAX_FRAMES];

/// A family of harvests.
#[derive(Clone, Copy, Debug, PartialEq, Eq)]
pub enum Family {
    DailySun,
    Random,
    Rising,
    Falling,
    Alternating,
    Constant,
    /// No harvest at all, and a start charge to spend.
    StartChargeOnly,
    Staircase,
    /// Random harvests and a store of capacity 0.
    ZeroCapacity,
}

/// All families, in the order of the tables.
pub const FAMILIES: [Family; 9] = [
    Family::DailySun,
    Family::Random,
    Family::Rising,
    Family::Falling,
    Family::Alternating,
    Family::Constant,
    Family::StartChargeOnly,
    Family::Staircase,
    Family::ZeroCapacity,
];

/// The families that are also measured with start and end at the capacity.
pub const FULL: [Family; 4] = [
    Family::Falling,
    Family::Alternating,
    Family::Constant,
    Family::StartChargeOnly,
];

impl Family {
    /// The family's name in tables.
    pub fn name(self) -> &'static str {
        match self {
            Family::DailySun => "daily sun",
            Family::Random => "random",
            Family::Rising => "rising",
            Family::Falling => "falling",
            Family::Alternating => "alternating",
            Family::Constant => "constant",
            Family::StartChargeOnly => "start only",
            Family::Staircase => "staircase",
            Family::ZeroCapacity => "zero capacity",
        }
    }

    /// Whether the family has more than one request of a size and a number of frames.
    pub fn is_random(self) -> bool {
        matches!(self, Family::DailySun | Family::Random | Family::ZeroCapacity)
    }

    /// Harvests of the family, none above `most`.
    pub fn harvest(self, frames: usize, most: u32, random: &mut Random) -> Vec<u32> {
        let share = |part: usize, whole: usize| (u64::from(most) * part as u64 / whole as u64) as u32;
        let frame = 0..frames;
        match self {
            Family::DailySun => daily_sun(frames, most, random),
            Family::Random | Family::ZeroCapacity => random.list(frames, most),
            Family::Rising => frame.map(|i| share(i + 1, frames)).collect(),
            Family::Falling => frame.map(|i| share(frames - i, frames)).collect(),
            Family::Alternating => frame.map(|i| if i % 2 == 0 { most } else { 0 }).collect(),
            Family::Constant => vec![most / 2; frames],
            Family::StartChargeOnly => vec![0; frames],
            Family::Staircase => frame.map(|i| share(i / 16 + 1, (frames + 15) / 16)).collect(),
        }
    }
}

/// Days of 96 frames: dark for half of the day, then a parabola of light dimmed by each day's and each frame's clouds.
fn daily_sun(frames: usize, most: u32, random: &mut Random) -> Vec<u32> {
    let mut day = 100;
    let mut harvest = Vec::with_capacity(frames);
    for i in 0..frames {
        let hour = (i % 96) as u64;
        if hour == 0 {
            day = 40 + random.up_to(60);
        }
        let light = if (24..72).contains(&hour) {
            (hour - 24) * (71 - hour)
        } else {
            0
        };
        let clear = day - random.up_to(20);
        harvest.push((u64::from(most) * light * clear / (24 * 24 * 100)) as u32);
    }
    harvest
}

/// How large the store is against what the frames bring.
#[derive(Clone, Copy, Debug, PartialEq, Eq)]
pub enum Size {
    Small,
    Middle,
    Unlimited,
}

/// All sizes, in the order of the tables.
pub const SIZES: [Size; 3] = [Size::Small, Size::Middle, Size::Unlimited];

impl Size {
    /// The size's name in tables.
    pub fn name(self) -> &'static str {
        match self {
            Size::Small => "small",
            Size::Middle => "middle",
            Size::Unlimited => "unlimited",
        }
    }

    /// The capacity for harvests of at most `most`: two frames' worth, sixteen, or the largest there is.
    pub fn capacity(self, most: u32) -> u32 {
        match self {
            Size::Small => most * 2,
            Size::Middle => most * 16,
            Size::Unlimited => MAX_CAPACITY,
        }
    }
}

/// A request of a family and a size: half of the store, at most four frames' worth, at the start and at the end.
/// Where nothing is harvested, the store starts full, at most with all frames' worth, and may end empty.
pub fn request(family: Family, size: Size, frames: usize, most: u32, random: &mut Random) -> (Figures, Vec<u32>) {
    let harvest = family.harvest(frames, most, random);
    let capacity = if family == Family::ZeroCapacity {
        0
    } else {
        size.capacity(most)
    };
    let half = (capacity / 2).min(most * 4);
    let (start, end) = match family {
        Family::StartChargeOnly => (capacity.min(most.saturating_mul(frames as u32)), 0),
        _ => (half, half),
    };
    (Figures { capacity, start, end }, harvest)
}

/// The same figures with start and end at the capacity.
pub fn full(figures: Figures) -> Figures {
    Figures {
        start: figures.capacity,
        end: figures.capacity,
        ..figures
    }
}

/// Random bounds for a request that is within reach, which it stays: of the kind by which about a third of all budgets are
/// at a bound.
pub fn bounded(figures: Figures, harvest: Vec<u32>, random: &mut Random) -> Lists {
    let Figures { capacity, start, end } = figures;
    let plan = certificate::plan(capacity.into(), start.into(), end.into(), &harvest);
    let (least, most) = around(Kind::Mixed, figures, &harvest, &plan, random);
    Lists { harvest, least, most }
}

/// A request of nested bounds: each frame may draw whatever the frame before may, and one less or more, and all of it out of the
/// store. A curve of reserves has the most to do here: every frame moves all its knots.
pub fn nested(frames: usize) -> (Figures, Lists) {
    let figures = Figures {
        capacity: MAX_CAPACITY,
        start: MAX_CAPACITY,
        end: 0,
    };
    let wider = 0..frames as u32;
    let lists = Lists {
        harvest: vec![0; frames],
        least: wider.clone().map(|i| 99_999 - i).collect(),
        most: wider.map(|i| 100_001 + i).collect(),
    };
    (figures, lists)
}
