//! What is measured: a row for every family, size and number of frames, and the requests that stand for it.

use energy::Figures;
use evidence::families::{bounded, full, nested, request, Family, Size, FAMILIES, FRAMES, FULL, SIZES};
use evidence::lists::Lists;
use evidence::random::{seed, Random};

/// The largest harvest of the measured requests.
pub const MOST: u32 = 1_000;

/// How many requests of a random family, and of any with random bounds, are timed, and how many are counted.
pub const TIMED: u64 = 8;
pub const COUNTED: u64 = 32;

/// A request, its harvests also as the source's algorithms take them.
pub struct Request {
    pub figures: Figures,
    pub lists: Lists,
    pub fractions: Vec<f64>,
}

/// What all requests of a family have in common.
#[derive(Clone, Copy, PartialEq)]
pub enum Kind {
    Usual(Family),
    /// Start and end at the capacity.
    Full(Family),
    /// The nested bounds, which are in no sum over the families.
    Nested,
}

impl Kind {
    /// All of them, in the order of the tables.
    pub fn all() -> Vec<Kind> {
        let usual = FAMILIES.into_iter().map(Kind::Usual);
        let full = FULL.into_iter().map(Kind::Full);
        usual.chain(full).chain([Kind::Nested]).collect()
    }

    /// Its name in tables.
    pub fn name(self) -> String {
        match self {
            Kind::Usual(family) => family.name().to_string(),
            Kind::Full(family) => format!("{}, full", family.name()),
            Kind::Nested => "nested bounds".to_string(),
        }
    }

    /// The capacities that it is measured with.
    fn sizes(self) -> &'static [Size] {
        match self {
            Kind::Usual(Family::ZeroCapacity) => &[Size::Small],
            Kind::Nested => &[Size::Unlimited],
            _ => &SIZES,
        }
    }

    /// Without bounds, with them, or both.
    fn bounds(self) -> &'static [bool] {
        match self {
            Kind::Nested => &[true],
            _ => &[false, true],
        }
    }
}

/// A row of the tables.
#[derive(Clone, Copy, PartialEq)]
pub struct Row {
    pub kind: Kind,
    pub bounded: bool,
    pub size: Size,
    pub frames: usize,
}

/// A figure of a row.
pub type Figure = (Row, f64);

impl Row {
    /// Whether it counts in the sums over the families.
    pub fn is_summed(&self) -> bool {
        self.kind != Kind::Nested
    }

    /// Its family's name, and whether it has bounds.
    pub fn family(&self) -> String {
        let bounded = if self.bounded && self.is_summed() {
            ", bounded"
        } else {
            ""
        };
        format!("{}{bounded}", self.kind.name())
    }

    /// Whether it has more than one request.
    fn is_random(&self) -> bool {
        match self.kind {
            Kind::Usual(family) | Kind::Full(family) => family.is_random() || self.bounded,
            Kind::Nested => false,
        }
    }

    /// So many of the row's requests, or its only one: the same in every run with the same seed.
    pub fn requests(&self, some: u64) -> Vec<Request> {
        self.requests_up_to(MOST, some)
    }

    /// The same with harvests up to a most.
    pub fn requests_up_to(&self, most: u32, some: u64) -> Vec<Request> {
        let count = if self.is_random() { some } else { 1 };
        (0..count).map(|i| self.request(most, i)).collect()
    }

    /// One of the row's requests.
    fn request(&self, most: u32, i: u64) -> Request {
        let mut random = Random::of_case(seed(), self.frames as u64 + (i << 32));
        let (figures, lists) = self.lists(most, &mut random);
        Request {
            figures,
            fractions: lists.harvest.iter().map(|&h| f64::from(h)).collect(),
            lists,
        }
    }

    /// A request's figures and lists.
    fn lists(&self, most: u32, random: &mut Random) -> (Figures, Lists) {
        let (family, is_full) = match self.kind {
            Kind::Usual(family) => (family, false),
            Kind::Full(family) => (family, true),
            Kind::Nested => return nested(self.frames),
        };
        let (figures, harvest) = request(family, self.size, self.frames, most, random);
        let figures = if is_full { full(figures) } else { figures };
        let lists = if self.bounded {
            bounded(figures, harvest, random)
        } else {
            Lists::unbounded(harvest)
        };
        (figures, lists)
    }
}

/// All rows, in the order of the tables: each kind without bounds and then with them.
pub fn rows() -> Vec<Row> {
    let mut rows = Vec::new();
    for kind in Kind::all() {
        for &size in kind.sizes() {
            for &bounded in kind.bounds() {
                rows.extend(FRAMES.iter().map(|&frames| Row {
                    kind,
                    bounded,
                    size,
                    frames,
                }));
            }
        }
    }
    rows
}
