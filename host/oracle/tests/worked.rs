//! The worked examples of document 01, with their answers written out.

mod common;

use common::{area, errors, fates, file, judge, refusal, ROOM};
use oracle::{answer, answer_by_reaching, Answer};
use treefile::examples::{
    P1, P10_RESERVED, P10_UNRESERVED, P11, P12, P2, P3, P4, P5, P6, P7, P8, P9,
};

/// Text, kinds of errors, fates, nodes, instances, bytes.
type Accepted = (
    &'static str,
    &'static [u32],
    &'static [u32],
    usize,
    u32,
    usize,
);

const ACCEPTED: [Accepted; 9] = [
    (P1, &[], &[2, 1], 6, 1, 396),
    (P2, &[12, 15, 16], &[2, 4], 6, 1, 396 + 3 * 16),
    (P3, &[], &[3, 2, 1], 8, 1, 396 + 2 * 32 + 32),
    (P4, &[15, 16], &[2, 4], 7, 1, 396 + 32 + 2 * 16),
    (P5, &[], &[2, 1], 6, 1, 396),
    (
        P6,
        &[13, 14],
        &[4],
        1,
        1,
        40 + 32 + 32 + 3 * 48 + 2 * 4 + 2 * 16,
    ),
    (P7, &[6, 11], &[2, 1], 9, 1, 396 + 3 * 32 + 2 * 16),
    (P8, &[], &[1, 2], 6, 2, 396),
    (P10_RESERVED, &[2], &[], 0, 1, 40 + 48 + 16),
];

#[test]
#[cfg_attr(no_source, ignore = "SKIPPED: the original source is not there")]
fn accepted() {
    for (text, kinds, ends, nodes, instances, bytes) in ACCEPTED {
        let area = area(text);
        assert_eq!(errors(&area), kinds, "{text}");
        assert_eq!(fates(&area), ends, "{text}");
        assert_eq!(
            (area.nodes.len(), area.instances),
            (nodes, instances),
            "{text}"
        );
        assert_eq!(area.to_bytes().len(), bytes, "{text}");
    }
}

#[test]
#[cfg_attr(no_source, ignore = "SKIPPED: the original source is not there")]
fn refused() {
    assert_eq!(judge(P9, "M").answer, Answer::Refused(6));
    assert_eq!(refusal(P10_UNRESERVED), 7);
    assert_eq!(refusal(P11), 8);
    assert_eq!(refusal(P12), 10);
}

#[test]
#[cfg_attr(no_source, ignore = "SKIPPED: the original source is not there")]
fn the_first_example_word_by_word() {
    let area = area(P1);
    let opened = treefile::File::open(&file(P1)).unwrap();
    let plus_1 = |name: &[u8]| opened.find_name(name).unwrap() + 1;
    assert_eq!(area.time, [0.0f64.to_bits(), f64::INFINITY.to_bits()]);
    let t = &area.variables[0];
    assert_eq!(t.name, plus_1(b"t"));
    assert_eq!((t.state, t.time_index, t.count, t.held), (false, 0, 0, 0));
    assert_eq!((t.time_dependent, t.bounds), (true, area.time));
    let x = &area.variables[1];
    assert_eq!(x.name, plus_1(b"x"));
    assert_eq!(
        (x.state, x.time_index, x.first, x.count, x.held),
        (true, 1, 0, 1, 1)
    );
    assert_eq!((x.conditions, x.time_dependent), (1, true));
    assert_eq!(
        x.bounds,
        [f64::NEG_INFINITY.to_bits(), f64::INFINITY.to_bits()]
    );
    assert_eq!(area.dependents, [0]);
    let places: Vec<_> = area
        .stmts
        .iter()
        .map(|s| (s.stmt.left, s.stmt.right, s.variable))
        .collect();
    assert_eq!(places, [(0, 1, 1), (4, 5, 1)]);
}

#[test]
#[cfg_attr(no_source, ignore = "SKIPPED: the original source is not there")]
fn minus_zero_keeps_its_bits() {
    let (one, five) = (area(P1), area(P5));
    let numbers: Vec<_> = five.nodes.iter().map(|node| node.number).collect();
    assert!(numbers.contains(&(-0.0f64).to_bits()));
    let bare = |mut node: treefile::Node| {
        node.span = treefile::Span::MISSING;
        node.number = 0;
        node
    };
    assert!(one
        .nodes
        .iter()
        .map(|n| bare(*n))
        .eq(five.nodes.iter().map(|n| bare(*n))));
}

#[test]
#[cfg_attr(no_source, ignore = "SKIPPED: the original source is not there")]
fn the_original_does_not_end_on_the_sixth() {
    let bytes = file(P6);
    assert!(matches!(answer(&bytes, b"root", ROOM), Answer::Unknown(_)));
    assert!(matches!(
        answer_by_reaching(&bytes, b"root", ROOM),
        Answer::Area(_)
    ));
}

#[test]
#[cfg_attr(no_source, ignore = "SKIPPED: the original source is not there")]
fn run_only() {
    let trailer = |names: u32| {
        let words = [0, names, 0, 0, 0, 0, 0, 1];
        words
            .iter()
            .flat_map(|word: &u32| word.to_le_bytes())
            .collect::<Vec<u8>>()
    };
    assert_eq!(answer(&[], b"root", ROOM), Answer::Refused(2));
    assert_eq!(answer(&[0; 31], b"root", ROOM), Answer::Refused(2));
    assert_eq!(answer(&trailer(0), b"root", ROOM), Answer::Refused(5));
    assert_eq!(answer(&trailer(257), b"root", ROOM), Answer::Refused(3));
    assert_eq!(answer(&trailer(256), b"root", ROOM), Answer::Refused(4));
    let bytes = file(P1);
    assert!(matches!(answer(&bytes, b"root", 396), Answer::Area(area) if area.len() == 396));
    assert_eq!(answer(&bytes, b"root", 395), Answer::Refused(1));
    assert_eq!(answer(&bytes, b"roof", ROOM), Answer::Refused(5));
}

#[test]
#[cfg_attr(no_source, ignore = "SKIPPED: the original source is not there")]
fn as_many_names_as_a_file_may_have() {
    let named = |count: u32| {
        let mut file = treefile::File::open(&file(P1)).unwrap();
        for extra in file.names.len() as u32..count {
            let start = file.text.len() as u32;
            file.text.extend(format!("n{extra}").bytes());
            let len = file.text.len() as u32 - start;
            file.names.push(treefile::Name { start, len });
        }
        file.to_bytes()
    };
    assert!(matches!(answer(&named(256), b"root", 396), Answer::Area(_)));
    assert_eq!(answer(&named(257), b"root", 396), Answer::Refused(3));
}

#[test]
#[cfg_attr(no_source, ignore = "SKIPPED: the original source is not there")]
fn the_largest_answer() {
    let fixed = generate::fixed();
    let largest = fixed.iter().find(|case| case.label == "largest answer");
    let case = largest.expect("a fixed case");
    let area = answer(&case.bytes, &case.root, 55_384);
    assert!(matches!(area, Answer::Area(area) if area.len() == 55_384));
    let short = answer(&case.bytes, &case.root, 55_383);
    assert_eq!(short, Answer::Refused(1));
}
