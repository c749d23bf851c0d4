//! What is read is what was written, in every place; and an answer whose sections do not fill it is not read.

use crate::layout::{HEADER_WORDS, MOSTS, MOST_BYTES, MOST_LISTED, RECORD_WORDS};
use crate::{Area, AreaError, AreaStmt, AreaVariable, Section, Sections};
use treefile::{Node, Span, Stmt};

fn span(start: u32) -> Span {
    Span {
        start,
        end: start + 1,
    }
}

fn error(kind: u32) -> AreaError {
    AreaError {
        kind,
        span: span(80),
        name: 83,
    }
}

/// Two nodes, one statement, one variable, three dependents and two errors, no two words equal.
fn area() -> Area {
    let node = |first: u32| Node {
        kind: first,
        name: first + 1,
        op: first + 2,
        size: first + 3,
        span: span(first + 4),
        number: u64::from(first + 6) | u64::from(first + 7) << 32,
    };
    let stmt = Stmt {
        kind: 40,
        name: 41,
        left: 42,
        right: 43,
        span: span(44),
    };
    Area {
        instances: 10,
        time: [12 << 32 | 11, 14 << 32 | 13],
        nodes: vec![node(20), node(30)],
        stmts: vec![AreaStmt {
            stmt,
            fate: 46,
            variable: 47,
        }],
        variables: vec![AreaVariable {
            name: 50,
            state: true,
            time_index: 52,
            first: 53,
            count: 54,
            held: 55,
            conditions: 56,
            time_dependent: false,
            bounds: [59 << 32 | 58, 61 << 32 | 60],
        }],
        dependents: vec![70, 71, 72],
        errors: vec![error(84), error(85)],
    }
}

#[test]
fn what_is_read_is_what_was_written() {
    let bytes = area().to_bytes();
    let sections = Sections::read(&bytes).expect("sections that fill it");
    assert_eq!(Area::of(&sections), area());
    assert_eq!(sections.counts(), [2, 1, 1, 3, 2, 10]);
}

#[test]
fn every_word_has_its_place() {
    let bytes = area().to_bytes();
    let sections = Sections::read(&bytes).expect("sections that fill it");
    let word = |section, i, k| u32::from(bytes[sections.byte(section, i, k)]);
    assert_eq!(word(Section::Nodes, 1, 3), 33);
    assert_eq!(word(Section::Stmts, 0, 6), 46);
    assert_eq!(word(Section::Variables, 0, 11), 61);
    assert_eq!(word(Section::Dependents, 2, 0), 72);
    assert_eq!(word(Section::Errors, 1, 0), 85);
    assert_eq!(sections.place(23), "word 5 of the header");
    let within = sections.byte(Section::Variables, 0, 9) + 3;
    assert_eq!(sections.place(within), "word 9 of variable 0");
    let last = bytes.len() - 1;
    assert_eq!(sections.place(last), "word 3 of error 1");
    assert!(sections.place(last + 1).contains("behind the answer"));
}

#[test]
fn sections_that_do_not_fill_the_answer() {
    let bytes = area().to_bytes();
    for length in 0..bytes.len() {
        assert!(Sections::read(&bytes[..length]).is_none(), "{length} bytes");
    }
    assert!(Sections::read(&[&bytes[..], &[0; 4]].concat()).is_none());
    for count in 0..5 {
        for high in [0, 3] {
            let mut more = bytes.clone();
            more[4 * count + high] += 1;
            assert!(Sections::read(&more).is_none(), "count {count}");
        }
    }
}

#[test]
fn errors_over_the_most_are_counted_and_not_listed() {
    let mut many = area();
    many.errors = (0..MOST_LISTED as u32 + 1).map(error).collect();
    let sections = Sections::read(&many.to_bytes()).expect("sections that fill it");
    assert_eq!(sections.counts()[4], MOST_LISTED + 1);
    many.errors.truncate(MOST_LISTED);
    assert_eq!(Area::of(&sections), many);
}

#[test]
fn the_largest_answer_has_all_mosts() {
    let words = MOSTS
        .iter()
        .zip(RECORD_WORDS)
        .map(|(most, words)| most * words);
    assert_eq!(MOST_BYTES, 4 * (HEADER_WORDS + words.sum::<usize>()));
}
