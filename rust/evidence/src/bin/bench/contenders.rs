//! The implementations that answer the same requests: the library, another build, its twin in Rust, the source's
//! algorithms.

use crate::beside::Beside;
use crate::rows::{Request, Row};
use energy::{Energy, Figures, Frames, Linked};
use evidence::algorithms::source;
use evidence::fast::Fast;
use evidence::reference::limits::MAX_FRAMES;

/// The calls that are measured.
#[derive(Clone, Copy, PartialEq)]
pub enum Call {
    Plan,
    Needed,
}

/// Both, in the order of the tables.
pub const CALLS: [Call; 2] = [Call::Plan, Call::Needed];

impl Call {
    /// Its name in tables.
    pub fn name(self) -> &'static str {
        match self {
            Call::Plan => "plan",
            Call::Needed => "needed capacity",
        }
    }

    /// Its name as a heading.
    pub fn title(self) -> &'static str {
        match self {
            Call::Plan => "Plan",
            Call::Needed => "Needed capacity",
        }
    }

    /// Its function in C.
    pub fn function(self) -> &'static str {
        match self {
            Call::Plan => "energy_plan",
            Call::Needed => "energy_needed",
        }
    }

    /// The call with this function.
    pub fn of_name(name: &str) -> Result<Call, String> {
        let found = CALLS.into_iter().find(|call| call.function() == name);
        found.ok_or_else(|| format!("no call {name}"))
    }
}

/// Who answers the requests.
#[derive(Clone, Copy, PartialEq)]
pub enum Contender {
    /// The linked library.
    Library,
    /// Another build of it.
    Beside,
    /// The same algorithm in Rust.
    Twin,
    /// The source's Algorithm 2, and its needed capacity by Algorithm 1.
    Source,
}

/// All of them, in the order of the tables.
pub const CONTENDERS: [Contender; 4] = [
    Contender::Library,
    Contender::Beside,
    Contender::Twin,
    Contender::Source,
];

impl Contender {
    /// Whether it answers a row's requests: the source's algorithms know of no bounds.
    pub fn answers(self, row: &Row) -> bool {
        self != Contender::Source || !row.bounded
    }

    /// How it makes a call, if it takes part.
    pub fn run(self, call: Call, beside: Option<&Beside>) -> Option<Run> {
        match self {
            Contender::Library => Some(by(Linked, call)),
            Contender::Beside => beside.map(|beside| other(beside, call)),
            Contender::Twin => Some(by(Fast, call)),
            Contender::Source => Some(source(call)),
        }
    }
}

/// Keeps a value from being computed beforehand or left out.
pub fn black_box<T>(value: T) -> T {
    // SAFETY: the value is read once, and the one it was read from is forgotten.
    unsafe {
        let read = std::ptr::read_volatile(&value);
        std::mem::forget(value);
        read
    }
}

/// One call for a request.
pub type Run = Box<dyn FnMut(&Request)>;

/// Plans into a list of its own.
fn plans(plan: impl Fn(Figures, Frames, &mut [u32]) -> bool + 'static) -> Run {
    let mut budgets = vec![0; MAX_FRAMES];
    Box::new(move |request| {
        let budgets = &mut budgets[..request.lists.count()];
        assert!(plan(
            black_box(request.figures),
            black_box(request.lists.frames()),
            budgets
        ));
        black_box(&budgets);
    })
}

/// Needed capacities.
fn needs(needed: impl Fn(Figures, Frames) -> Option<u64> + 'static) -> Run {
    Box::new(move |request| {
        let answer = needed(black_box(request.figures), black_box(request.lists.frames()));
        assert!(black_box(answer).is_some());
    })
}

/// The call by the linked library or its twin.
fn by(energy: impl Energy + 'static, call: Call) -> Run {
    match call {
        Call::Plan => plans(move |figures, frames, budgets| energy.plan(figures, frames, budgets).is_ok()),
        Call::Needed => needs(move |figures, frames| energy.needed(figures, frames).ok()),
    }
}

/// The call by another build of the library.
fn other(beside: &Beside, call: Call) -> Run {
    let beside = beside.clone();
    match call {
        Call::Plan => plans(move |figures, frames, budgets| beside.plan(figures, frames, budgets)),
        Call::Needed => needs(move |figures, frames| beside.needed(figures, frames)),
    }
}

/// The call by the source's algorithms.
fn source(call: Call) -> Run {
    let mut budgets = vec![0.0; MAX_FRAMES];
    Box::new(move |request| {
        let Figures { capacity, start, end } = black_box(request.figures);
        let (capacity, start, end) = (capacity.into(), start.into(), end.into());
        let harvest = black_box(&request.fractions);
        match call {
            Call::Plan => {
                let budgets = &mut budgets[..harvest.len()];
                source::recursive_decomposition(capacity, start, end, harvest, budgets);
                black_box(&budgets);
            }
            Call::Needed => {
                black_box(source::needed(start, end, harvest));
            }
        }
    })
}
