//! Evidence about the energy planner from outside: an independent implementation of documents 01 and 02, exhaustive search,
//! the algorithms that serve as baselines, and cases that can be printed and run again.

pub mod algorithms;
pub mod bounds;
pub mod cases;
pub mod check;
pub mod families;
pub mod fast;
pub mod generate;
pub mod lists;
pub mod random;
pub mod reference;

use energy::{Energy, Linked};
use reference::Reference;

/// The implementations under test: the fast Rust one, and the proved library.
pub fn under_test() -> Vec<Box<dyn Energy>> {
    vec![Box::new(fast::Fast), Box::new(Linked)]
}

/// Every implementation, the reference too.
pub fn with_reference() -> Vec<Box<dyn Energy>> {
    let mut all = under_test();
    all.push(Box::new(Reference));
    all
}
