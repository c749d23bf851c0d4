//! The text form of models, easy to write by hand:
//!
//! ```text
//! # a decay
//! model root(x(t), k -> NonNegative, t -> (-1, 10)) {
//!     dot(x) = -k * x;
//!     x(0) = 1;
//!     M(x, s = 2)
//! }
//! ```
//!
//! - Models stand one after another. An unknown has its dependents in parentheses and its domain behind `->`: a range of
//!   two numbers, or a name. In a range, and nowhere else, `inf` and `nan` are numbers and a sign belongs to the number.
//! - Statements are separated by `;`, one behind the last is allowed. `dot(NAME) = ..` is a rate equation; elsewhere, or
//!   in quotes, `dot` is a name like any other. A call that no `=` follows is a submodel statement.
//! - `+ - * /` have the usual precedence and associate to the left; a sign binds tighter than they do, so that `-k * x`
//!   is `(-k) * x`. Parentheses make no node. An argument may be `keyword = value`.
//! - A number is decimal, with an exponent if wanted, or `0x` and exactly 16 hexadecimal digits, its 64 bits.
//! - A name is of letters, digits and `_` and begins with no digit; any bytes can be a name in double quotes, with
//!   `\xNN` for a byte. `#` begins a comment that ends with its line.
//!
//! A span reaches from the first byte to past the last one, a parenthesized expression's including its parentheses; a
//! binary's from its left operand's start to its right operand's end.

mod parse;
mod print;
#[cfg(test)]
mod tests;
mod tokens;

pub use parse::parse;
pub use print::{name as print_name, print, stmt as print_stmt};

use std::fmt;

/// What is wrong with a text, and where.
#[derive(Clone, Debug, PartialEq, Eq)]
pub struct Error {
    /// The byte, from 0.
    pub place: usize,
    /// The line, from 1.
    pub line: usize,
    /// The character of the line, from 1.
    pub column: usize,
    pub message: String,
}

impl Error {
    fn at(text: &str, place: usize, message: impl Into<String>) -> Error {
        let before = String::from_utf8_lossy(&text.as_bytes()[..place.min(text.len())]);
        let last_line = before.rsplit('\n').next().unwrap_or("");
        Error {
            place,
            line: before.matches('\n').count() + 1,
            column: last_line.chars().count() + 1,
            message: message.into(),
        }
    }
}

impl fmt::Display for Error {
    fn fmt(&self, f: &mut fmt::Formatter) -> fmt::Result {
        write!(
            f,
            "line {}, column {}: {}",
            self.line, self.column, self.message
        )
    }
}

impl std::error::Error for Error {}
