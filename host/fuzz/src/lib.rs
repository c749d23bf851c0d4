//! The proved builder on files of every kind, for so long: each slice against forbidden pages, each call checked, cases that
//! show something new kept and changed further, and every so often a comparison with the original.

mod blocks;
mod check;
mod corpus;
pub mod crash;
mod features;
mod figures;
mod lend;
mod listing;
mod mutate;
mod pages;
mod run;
mod shape;
mod sys;
#[cfg(test)]
mod tests;

pub use figures::Figures;
pub use lend::Bench;
pub use pages::{Pages, Side};
pub use run::run;
