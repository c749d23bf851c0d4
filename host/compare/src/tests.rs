//! A spoiled answer is noticed: by the ordered variant in every byte, by the unmodified one in what can be compared.

use crate::{areas, unmodified};
use area::{Section, Sections};
use record::Case;
use treefile::examples::{P2, P3};
use treefile::File;

/// A file with the answer that the judge gives.
fn judged(text: &str) -> Case {
    let source = treefile::text::parse(text).unwrap();
    let file = source.assemble().to_bytes();
    let answer = oracle::answer(&file, b"root", 60_000);
    Case::of(file, b"root".to_vec(), answer).unwrap()
}

/// Whether the unmodified original agrees with an answer.
fn agrees(case: &Case, answer: &[u8]) -> bool {
    let file = File::open(&case.file).unwrap();
    unmodified::compare(&file, &case.root, answer).is_ok()
}

#[test]
#[cfg_attr(no_source, ignore = "SKIPPED: the original source is not there")]
fn every_spoiled_word_differs() {
    let case = judged(P2);
    for at in (0..case.area.len()).step_by(4) {
        let mut spoiled = case.clone();
        spoiled.area[at] ^= 1;
        assert!(areas::check(&spoiled, 7).is_err(), "byte {at}");
    }
}

/// Counts of errors and instances, first dependents, conditions and time-dependence are not in the unmodified report.
#[test]
#[cfg_attr(no_source, ignore = "SKIPPED: the original source is not there")]
fn the_unmodified_original_notices() {
    let case = judged(P3);
    assert!(agrees(&case, &case.area));
    let answer = Sections::read(&case.area).unwrap();
    let op = answer.byte(Section::Nodes, 1, 2);
    let [span, fate] = [4, 6].map(|k| answer.byte(Section::Stmts, 0, k));
    let x = [0, 1, 2, 5, 8].map(|k| answer.byte(Section::Variables, 1, k));
    for at in [24, op, span, fate].into_iter().chain(x) {
        let mut spoiled = case.area.clone();
        spoiled[at] ^= 1;
        assert!(!agrees(&case, &spoiled), "byte {at}");
    }
}

#[test]
#[cfg_attr(no_source, ignore = "SKIPPED: the original source is not there")]
fn the_unmodified_original_notices_errors() {
    let case = judged(P2);
    let first = case.area.len() - 3 * 16;
    assert!(agrees(&case, &case.area));
    for at in [first, first + 4, first + 16, first + 32, first + 44] {
        let mut spoiled = case.area.clone();
        spoiled[at] ^= 2;
        assert!(!agrees(&case, &spoiled), "byte {at}");
    }
}

/// Whether x and y get 16 and 17 hangs on the order, and with it whether there are more errors than are listed: 257 or 255.
#[test]
#[cfg_attr(no_source, ignore = "SKIPPED: the original source is not there")]
fn errors_about_the_most() {
    let many = ["q"; 253].join(" + ");
    let stmts = format!("x = {many}; dot(q) = 1; x(0) = 1; dot(z) = 1");
    let case = judged(&format!("model root(x(t), y(t), z(t)) {{ {stmts} }}"));
    for _ in 0..32 {
        assert!(agrees(&case, &case.area));
    }
}
