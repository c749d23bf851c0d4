//! Tree files: their records, their layout rules, a tree form that is easy to make by program, and a text form that is
//! easy to make by hand. Written from the description of the format alone and independent of the Rattle code, so that
//! one can judge the other.

pub mod examples;
pub mod layout;
pub mod records;
pub mod source;
pub mod text;

pub use records::{File, Model, Name, Node, Span, Stmt, Unknown};
