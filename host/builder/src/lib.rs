//! The verified model builder for a Rust host: a tree file and a root name go in, and either an [`Answer`] of typed
//! records comes out or a [`Refusal`] that says who can mend it.
//!
//! ```no_run
//! let file = std::fs::read("model.tree").unwrap();
//! match builder::build(&file, b"root") {
//!     Ok(answer) => println!("{} statements", answer.statements.len()),
//!     Err(refusal) => println!("{}: {refusal}", refusal.number()),
//! }
//! ```
//!
//! What the build answers is proved; what this crate does with it is tested.

mod answer;
mod error_kind;
pub mod layout;
mod read;
mod records;
mod refusal;
mod trees;
mod words;

pub use answer::Answer;
pub use error_kind::ErrorKind;
pub use read::Broken;
pub use records::{Bounds, Equation, Error, Fate, Node, NodeKind, Span, Statement, Variable};
pub use refusal::{Mender, Refusal};

/// The version, the same as `BUILDER_VERSION` of the C header.
pub const VERSION: &str = env!("CARGO_PKG_VERSION");

/// Builds into an area of the greatest length that an answer can have, and reads it.
pub fn build(file: &[u8], root: &[u8]) -> Result<Answer, Refusal> {
    let mut area = vec![0; layout::MOST_BYTES];
    let used = build_into(file, root, &mut area)?;
    Ok(Answer::read(&area[..used]).expect("an accepted answer keeps the layout"))
}

/// Builds into a lent area and answers the bytes used. Afterwards the area holds the answer with zeros behind it or,
/// where the build is refused, zeros only, whatever it held before.
pub fn build_into(file: &[u8], root: &[u8], area: &mut [u8]) -> Result<usize, Refusal> {
    let told = builder_sys::build(file, root, area);
    match builder_sys::number(told) {
        0 => Ok(builder_sys::used(told) as usize),
        number => Err(Refusal::of_number(number).expect("a refusal has a number from 1 to 10")),
    }
}
