//! The declaration against the library, since nothing else checks it: lengths, order of arguments, returned words, and
//! what the area holds afterwards.

use builder::{build, build_into, Refusal};
use treefile::examples::{self, P1, P8};

fn file(text: &str) -> Vec<u8> {
    let source = treefile::text::parse(text).expect("a text");
    source.assemble().to_bytes()
}

/// What `build` returns: number and bytes used.
fn told(file: &[u8], root: &[u8], area: &mut [u8]) -> (u32, u32) {
    let told = builder_sys::build(file, root, area);
    (told as u32, (told >> 32) as u32)
}

#[test]
fn the_two_words_returned() {
    let mut area = [0xAA; 1000];
    assert_eq!(told(&file(P1), b"root", &mut area), (0, 396));
    assert_eq!(told(&file(P1), b"other", &mut area), (5, 0));
    assert_eq!(told(&[], b"root", &mut area), (2, 0));
}

/// The file, the root name and the area each stand between other bytes, which are neither read nor written.
#[test]
fn each_length_is_taken() {
    let bytes = file(P1);
    let inside = [b"front".as_slice(), &bytes, b"behind"].concat();
    let end = 5 + bytes.len();
    let mut area = [0xAA; 500];
    assert_eq!(
        told(&inside[5..end], &b"a root b"[2..6], &mut area),
        (0, 396)
    );
    assert_eq!(told(&inside[5..end], &b"a root b"[2..5], &mut area), (5, 0));
    assert_eq!(told(&inside[5..end], b"", &mut area), (5, 0));
    assert_eq!(told(&inside[4..end], b"root", &mut area), (4, 0));
    assert_eq!(told(&inside[5..5 + 31], b"root", &mut area), (2, 0));
    assert_eq!(told(&inside[5..end], b"root", &mut area[50..446]), (0, 396));
    assert_eq!(told(&inside[5..end], b"root", &mut area[50..445]), (1, 0));
    assert_eq!(told(&inside[5..end], b"root", &mut []), (1, 0));
}

/// A file in the place of the root name is no root name, and the other way about.
#[test]
fn the_order_of_the_arguments() {
    let bytes = file(P1);
    let mut area = [0xAA; 500];
    assert_eq!(told(&bytes, &bytes, &mut area), (5, 0));
    assert_eq!(told(b"root", &bytes, &mut area), (2, 0));
    assert_eq!(told(b"root", b"root", &mut area), (2, 0));
}

#[test]
fn zeros_behind_an_answer_and_nothing_beyond_the_area() {
    let mut around = [0xAA; 1000];
    let used = build_into(&file(P1), b"root", &mut around[100..900]).unwrap();
    assert_eq!(used, 396);
    assert!(around[..100]
        .iter()
        .chain(&around[900..])
        .all(|b| *b == 0xAA));
    assert!(around[100 + used..900].iter().all(|b| *b == 0));
    let answer = area::Sections::read(&around[100..100 + used]).expect("an answer");
    assert_eq!(answer.counts(), [6, 2, 2, 1, 0, 1]);
}

#[test]
fn zeros_only_where_refused() {
    for (bytes, root, refusal) in [
        (file(P1), "M", Refusal::NoRoot),
        (Vec::new(), "root", Refusal::NoForm),
        (file(examples::P9), "M", Refusal::ModelCycle),
        (file(examples::P12), "root", Refusal::ShortLeftSide),
    ] {
        let mut around = [0xAA; 700];
        let answer = build_into(&bytes, root.as_bytes(), &mut around[100..600]);
        assert_eq!(answer, Err(refusal));
        assert!(around[100..600].iter().all(|b| *b == 0));
        assert!(around[..100]
            .iter()
            .chain(&around[600..])
            .all(|b| *b == 0xAA));
    }
}

#[test]
fn the_worked_examples() {
    for example in examples::ALL {
        let bytes = file(example.text);
        match build(&bytes, example.root.as_bytes()) {
            Err(refusal) => assert_eq!(refusal.number(), example.refusal, "{}", example.label),
            Ok(answer) => {
                assert_eq!(example.refusal, 0, "{}", example.label);
                let kinds: Vec<u32> = answer.errors.iter().map(|e| e.kind.number()).collect();
                let fates: Vec<u32> = answer.statements.iter().map(|s| s.fate.number()).collect();
                assert_eq!(kinds, example.errors, "{}", example.label);
                assert_eq!(fates, example.fates, "{}", example.label);
                assert_eq!(answer.is_clean(), kinds.is_empty(), "{}", example.label);
            }
        }
    }
}

#[test]
fn a_second_call_answers_the_same() {
    let bytes = file(P8);
    let mut areas = [[0x11; 800], [0x77; 800]];
    for area in &mut areas {
        assert_eq!(build_into(&bytes, b"root", area), Ok(396));
    }
    assert_eq!(areas[0], areas[1]);
}
