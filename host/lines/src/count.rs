//! Lines and columns, counted from their description.

use builder::Answer;
use std::fmt::Write;

/// Line and column of a byte, both from 1: 1 plus the newlines before it, and 1 plus the bytes since the last of them or
/// since the beginning. 0 and 0 above the text's length.
pub fn place(text: &[u8], start: usize) -> (usize, usize) {
    let Some(before) = text.get(..start) else {
        return (0, 0);
    };
    let newlines = before.iter().filter(|byte| **byte == b'\n').count();
    let since = before.iter().rev().take_while(|byte| **byte != b'\n');
    (newlines + 1, since.count() + 1)
}

/// What is printed of an answer and a text: line, column and kind of each listed error.
pub fn printed(answer: &Answer, text: &[u8]) -> String {
    let mut lines = String::new();
    for error in &answer.errors {
        let span = error.span;
        let (line, column) = span.map_or((0, 0), |span| place(text, span.start as usize));
        let kind = error.kind.number();
        writeln!(lines, "{line} {column} {kind}").expect("a string takes it");
    }
    lines
}
