//! Answer areas: their layout, their words section by section, and their records. Written from the description of the
//! format alone and independent of the Rattle code, so that one can judge the other. What users read an area with is the
//! crate `builder`, which shares nothing with this one.

pub mod layout;
mod read;
mod records;
mod sections;
#[cfg(test)]
mod tests;
mod write;

pub use layout::{fate, Section};
pub use records::{Area, AreaError, AreaStmt, AreaVariable};
pub use sections::Sections;
