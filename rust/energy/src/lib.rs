//! The energy planner of the blending room for Rust programs: the proved library `libenergy.a`, with answers and refusals as
//! types.
//!
//! A request has [`Figures`] (capacity, start charge, end charge) and for each frame a harvest, and a least and a most budget
//! if it has them, in whole watt-hours. [`plan`] answers the budgets: feasible, and best for every concave, never falling
//! reward curve at once.
//!
//! ```
//! use energy::{Figures, Frames, Verdict};
//! use std::error::Error;
//!
//! fn main() -> Result<(), Box<dyn Error>> {
//!     let figures = Figures { capacity: 5, start: 2, end: 2 };
//!     let harvest = [6, 4, 0, 0, 5, 5];
//!     let frames = Frames::unbounded(&harvest);
//!
//!     let budgets = energy::plan(figures, frames)?;
//!     assert_eq!(budgets, [4, 3, 3, 2, 4, 4]);
//!     assert_eq!(energy::needed(figures, frames)?, 6);
//!     assert_eq!(energy::grade(&budgets)?, [320, 480, 100]);
//!
//!     let trace = energy::trace(figures, &harvest, &[0; 6])?;
//!     assert_eq!(trace.verdict, Verdict::Feasible);
//!     assert_eq!(trace.losses, [3, 4, 0, 0, 5, 5]);
//!     Ok(())
//! }
//! ```
//!
//! # Bounds
//!
//! [`Frame`] has its bounds as `Option`s, and [`OwnedFrames`] keeps the frames of a request. [`Frames`] lends three lists that
//! stand anywhere.
//!
//! ```
//! use energy::{Figures, Frame, OwnedFrames};
//!
//! let mut day = [6, 4, 0, 0, 5, 5].map(Frame::unbounded);
//! day[0].most = Some(3);
//! day[3].least = Some(3);
//! let frames: OwnedFrames = day.into_iter().collect();
//! let budgets = energy::plan(Figures { capacity: 5, start: 2, end: 2 }, frames.frames())?;
//! assert_eq!(budgets, [3, 4, 2, 3, 4, 4]);
//! # Ok::<(), energy::Refusal>(())
//! ```
//!
//! # A running shift
//!
//! [`start`] gives a [`Shift`], [`record`] the next one, and [`plan_rest`] the budgets of the frames not yet recorded. A shift
//! is a value without a list: the forecast stays with the caller, and may be another one before each plan.
//!
//! ```
//! use energy::{Figures, Frames, Rest};
//!
//! let figures = Figures { capacity: 5, start: 2, end: 2 };
//! let frames = Frames::unbounded(&[6, 4, 0, 0, 5, 5]);
//! let shift = energy::start(figures, frames)?;
//! let shift = energy::record(shift, 1, 3)?;
//! assert_eq!(shift.now.charge, 0);
//!
//! let plan = energy::plan_rest(shift, frames)?;
//! match plan.rest {
//!     Rest::Planned => assert_eq!(plan.budgets, [2, 1, 1, 4, 4]),
//!     Rest::Short { missing } => println!("{missing} Wh are missing at the end"),
//! }
//! # Ok::<(), Box<dyn std::error::Error>>(())
//! ```
//!
//! # Refusals
//!
//! What is refused is a [`Refusal`], of a recording a [`NotRecorded`]; both are errors, so that `?` hands them on. Each
//! function names its refusals by their numbers, in the order in which they are looked for: the first that holds is given.
//! Printed with `{}`, an error says all; a `main` that returns it prints it with `{:?}`, which has no sentence.
//!
//! ```
//! use energy::{Figures, Frames, Refusal};
//!
//! let figures = Figures { capacity: 30, start: 2, end: 23 };
//! let refusal = energy::plan(figures, Frames::unbounded(&[6, 4, 0, 0, 5, 5])).unwrap_err();
//! assert_eq!(refusal, Refusal::OutOfReach { missing: 1 });
//! assert_eq!((refusal.number(), refusal.p()), (9, 1));
//! assert_eq!(
//!     refusal.to_string(),
//!     "refused 9 1: the end charge is out of reach: start charge and all harvest are 1 Wh short of it"
//! );
//! ```
//!
//! # Without allocation
//!
//! The functions of this crate answer lists of their own. They call [`Linked`], whose trait [`Energy`] writes into lists that
//! the caller lends, and allocates nothing. What a call takes of the stack is said in `include/energy.h`. The crate needs the
//! standard library, for its errors, lists and texts.
//!
//! # Threads
//!
//! Nothing is shared between calls, so they may run on any threads at the same time. All types here are `Send` and `Sync`.
//!
//! # Panics
//!
//! No call panics because of what it is given: lists of any length and any content are answered or refused. An answer that
//! `include/energy.h` rules out is a panic, since the archive linked is then not the one of this crate. A function of this crate
//! allocates at most for [`MAX_FRAMES`] frames, however long the lists are that it is lent.

#![deny(missing_docs)]

mod answers;
mod calls;
mod files;
mod forms;
mod frames;
mod interface;
mod linked;
#[allow(dead_code, missing_docs)]
mod raw;
mod refusal;
mod shifts;
mod version;

pub use answers::{Figures, Header, NotRecorded, Present, Rest, RestPlan, Shift, Terms, Totals, Trace, Verdict};
pub use calls::{grade, needed, plan, trace};
pub use files::{listing, read, write};
pub use frames::{Frame, FrameIter, Frames, OwnedFrames};
pub use interface::Energy;
pub use linked::Linked;
pub use refusal::Refusal;
pub use shifts::{plan_rest, record, start};
pub use version::VERSION;

/// The most frames of a request.
pub const MAX_FRAMES: usize = raw::ENERGY_MAX_FRAMES as usize;

/// The most bytes of a word file.
pub const MAX_FILE_BYTES: usize = raw::ENERGY_MAX_FILE_BYTES as usize;

/// Room for any listing.
pub const LISTING_BYTES: usize = raw::ENERGY_LISTING_BYTES as usize;

/// The largest capacity, in watt-hours.
pub const MAX_CAPACITY: u32 = raw::ENERGY_MAX_CAPACITY;

/// The largest harvest of a frame, in watt-hours.
pub const MAX_HARVEST: u32 = raw::ENERGY_MAX_HARVEST;

/// The largest least of a frame, and its largest most beside [`NO_UPPER_END`], in watt-hours.
pub const MAX_BOUND: u32 = raw::ENERGY_MAX_BOUND;

/// As a most: the frame has no upper end.
pub const NO_UPPER_END: u32 = raw::ENERGY_NO_UPPER_END;

/// The Rust examples of docs/RUST.md, run as tests.
#[cfg(doctest)]
#[doc = include_str!("../../../docs/RUST.md")]
pub struct Page;
