//! Recorded cases: tree files and root names with the oracle's answers, so that a build can be judged where the original
//! source is not there.

pub mod builds;
pub mod layout;
mod pack;

pub use pack::{read, write, Case};
