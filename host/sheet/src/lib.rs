//! Witness sheets: what a build answered, in words, for those who seal it. Numbers come from the answer area; only the
//! statements that went in are counted from the tree file, so that the two counts do not share a source.

mod entries;
mod equations;
mod place;
mod print;
mod sheet;
mod sizes;
mod statements_in;

pub use place::Text;
pub use print::print;
pub use sheet::{accepted, refused, Case, Sheet};
pub use statements_in::{statements_in, Origin, StatementsIn};
