//! The judge of the new builder: the original Rust builder, compiled from its own source, run on tree files and put into
//! the form of document 01. Refusals that stand for panics and endless descents are decided by that document's own
//! conditions, and each is checked against what the original does.

mod assemble;
mod check;
mod compare;
pub mod deep;
mod failure;
mod flatten;
mod judge;
mod measure;
mod origins;
mod plan;
mod reach;
pub mod tally;
mod variables;

pub use compare::{report_ordered, report_unmodified, same_up_to_order, Run};
pub use failure::Failure;
pub use judge::{answer, answer_by_reaching, judge, Answer, Judged};
pub use measure::Sizes;
pub use plan::{prospect, Plan, Prospect};

/// Whether the original source files were there when this was compiled. Where they were not, nothing can be judged.
pub fn available() -> bool {
    rust_ordered::available() && rust_unmodified::available()
}
