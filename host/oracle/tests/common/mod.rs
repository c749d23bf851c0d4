//! Small cases in the text form, and the oracle's answer to them.
#![allow(dead_code)]

use area::Area;
use oracle::{Answer, Judged};

/// More than any answer needs.
pub const ROOM: usize = 60_000;

/// The tree file of a text.
pub fn file(text: &str) -> Vec<u8> {
    let source = treefile::text::parse(text).unwrap_or_else(|error| panic!("{error} in {text}"));
    source.assemble().to_bytes()
}

/// The oracle on a text.
pub fn judge(text: &str, root: &str) -> Judged {
    oracle::judge(&file(text), root.as_bytes(), ROOM)
        .unwrap_or_else(|error| panic!("{error} in {text}"))
}

/// The area of a text that is accepted.
pub fn area(text: &str) -> Area {
    let judged = judge(text, "root");
    assert!(
        matches!(judged.answer, Answer::Area(_)),
        "{text}: {:?}",
        judged.answer
    );
    judged.area.expect("an area")
}

/// The refusal of a text.
pub fn refusal(text: &str) -> u32 {
    match judge(text, "root").answer {
        Answer::Refused(number) => number,
        answer => panic!("{text}: {answer:?}"),
    }
}

/// The kinds of the errors.
pub fn errors(area: &Area) -> Vec<u32> {
    area.errors.iter().map(|error| error.kind).collect()
}

/// The fates of the statements.
pub fn fates(area: &Area) -> Vec<u32> {
    area.stmts.iter().map(|stmt| stmt.fate).collect()
}
