//! The algorithms that the planner is measured against.

pub mod certificate;
pub mod linear;
pub mod lines;
pub mod looks;
pub mod source;
pub mod tracing;
pub mod words;
