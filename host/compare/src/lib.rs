//! The proved builder against the original: every byte of the answer, the number, the bytes used, and the bytes around
//! the area, for areas of several lengths.

mod areas;
pub mod examples;
mod failing;
mod lend;
mod report;
mod series;
mod shrink;
#[cfg(test)]
mod tests;
mod unmodified;

pub use areas::check;
pub use failing::keep;
pub use series::Series;
pub use shrink::smallest;
