//! Tests of the layout rules: each is broken once.

use super::*;
use crate::records::{stmt, Name, Node, Span, MISSING};
use crate::text::parse;
use crate::{examples, source::Source};

/// Has every kind of node, domain and statement. Its nodes: 0 to 2 are x(0) and 3 the 1; 4 x, 5 its unary, 6 k, 7 the
/// product; 8 and 9 the positional argument, 10 and 11 the keyword one, 12 the call.
const WHOLE: &str = "model M(s) { }
    model root(x(t, y), y, k -> NonNegative, t -> (-1, 10)) {
        x(0) = 1; dot(x) = -x * k; M(x, s = 2) }";

fn file(text: &str) -> File {
    parse(text).expect("the text form reads").assemble()
}

fn open(file: &File) -> Result<File, u32> {
    File::open(&file.to_bytes())
}

type Edit = (&'static str, fn(&mut File));

fn check(edits: &[Edit], fits: bool) {
    let good = file(WHOLE);
    assert_eq!(open(&good).as_ref(), Ok(&good));
    for (what, edit) in edits {
        let mut edited = good.clone();
        edit(&mut edited);
        assert_ne!(edited, good, "{what}: the edit changes nothing");
        let expected = if fits {
            Ok(edited.clone())
        } else {
            Err(BROKEN_LAYOUT)
        };
        assert_eq!(open(&edited), expected, "{what}");
    }
}

#[test]
fn whole_has_the_nodes_that_the_edits_speak_of() {
    let good = file(WHOLE);
    let kinds: Vec<u32> = good.nodes.iter().map(|n| n.kind).collect();
    assert_eq!(kinds, [2, 6, 5, 2, 1, 4, 1, 3, 1, 6, 2, 6, 5]);
    let stmts: Vec<u32> = good.stmts.iter().map(|s| s.kind).collect();
    assert_eq!(stmts, [1, 2, 3]);
    let sizes: Vec<u32> = good.nodes.iter().map(|n| n.size).collect();
    assert_eq!(sizes, [1, 2, 3, 1, 1, 2, 1, 4, 1, 2, 1, 2, 5]);
}

#[test]
fn unused_fields_are_zero() {
    check(
        &[
            ("name's op", |f| f.nodes[4].op = 1),
            ("name's number", |f| f.nodes[4].number = 1),
            ("name's number, high", |f| f.nodes[4].number = 1 << 32),
            ("number's name", |f| f.nodes[0].name = 1),
            ("number's op", |f| f.nodes[0].op = 1),
            ("binary's name", |f| f.nodes[7].name = 1),
            ("binary's number", |f| f.nodes[7].number = 1),
            ("unary's name", |f| f.nodes[5].name = 1),
            ("unary's number", |f| f.nodes[5].number = 1),
            ("call's number", |f| f.nodes[2].number = 1),
            ("argument's op", |f| f.nodes[1].op = 1),
            ("argument's number", |f| f.nodes[1].number = 1),
            ("equation's name", |f| f.stmts[0].name = 1),
            ("rate equation's left", |f| f.stmts[1].left = 4),
            ("submodel's name", |f| f.stmts[2].name = 1),
            ("submodel's left", |f| f.stmts[2].left = 8),
            ("no domain, lower", |f| f.unknowns[1].lower = 1),
            ("no domain, upper", |f| f.unknowns[1].upper = 1),
            ("named domain, lower's high word", |f| {
                f.unknowns[3].lower += 1 << 32
            }),
            ("named domain, upper", |f| f.unknowns[3].upper = 1),
            ("named domain, upper's high word", |f| {
                f.unknowns[3].upper = 1 << 32
            }),
        ],
        false,
    );
}

#[test]
fn kinds_and_ops_are_those_that_exist() {
    check(
        &[
            ("node kind 0", |f| f.nodes[4].kind = 0),
            ("node kind 7", |f| f.nodes[4].kind = 7),
            ("statement kind 0", |f| f.stmts[0].kind = 0),
            ("statement kind 4", |f| f.stmts[0].kind = 4),
            ("domain 3", |f| f.unknowns[4].domain = 3),
            ("binary op 0", |f| f.nodes[7].op = 0),
            ("binary op with a high byte", |f| f.nodes[7].op = 0x12B),
            ("binary op %", |f| f.nodes[7].op = u32::from(b'%')),
            ("unary op *", |f| f.nodes[5].op = u32::from(b'*')),
            ("unary op with a high byte", |f| f.nodes[5].op = 0x12B),
        ],
        false,
    );
    check(
        &[
            ("binary op +", |f| f.nodes[7].op = u32::from(b'+')),
            ("binary op /", |f| f.nodes[7].op = u32::from(b'/')),
            ("unary op +", |f| f.nodes[5].op = u32::from(b'+')),
        ],
        true,
    );
}

#[test]
fn names_are_in_range() {
    check(
        &[
            ("name node", |f| f.nodes[4].name = f.names.len() as u32),
            ("call", |f| f.nodes[2].name = f.names.len() as u32),
            ("argument", |f| f.nodes[11].name = f.names.len() as u32 + 1),
            ("rate equation", |f| f.stmts[1].name = f.names.len() as u32),
            ("unknown", |f| f.unknowns[0].name = f.names.len() as u32),
            ("dependent", |f| f.dependents[0] = f.names.len() as u32),
            ("domain", |f| f.unknowns[3].lower = f.names.len() as u64),
            ("model", |f| f.models[0].name = f.names.len() as u32),
        ],
        false,
    );
    check(
        &[
            ("argument's last", |f| {
                f.nodes[11].name = f.names.len() as u32
            }),
            ("positional", |f| f.nodes[11].name = 0),
            ("call of no model", |f| f.nodes[12].name = 1),
        ],
        true,
    );
}

#[test]
fn names_lie_in_the_text_and_differ() {
    check(
        &[
            ("no byte", |f| f.names[0].len = 0),
            ("past the text", |f| {
                f.names[0].len = f.text.len() as u32 + 1
            }),
            ("starts at the end", |f| {
                f.names[0].start = f.text.len() as u32
            }),
            ("wraps", |f| {
                f.names[0] = Name {
                    start: u32::MAX,
                    len: 2,
                }
            }),
            ("long", |f| f.names[0].len = u32::MAX),
            ("same record", |f| f.names[0] = f.names[1]),
            ("same bytes elsewhere", |f| {
                f.text.push(f.text[0]);
                let start = f.text.len() as u32 - 1;
                f.names.push(Name { start, len: 1 });
            }),
        ],
        false,
    );
    check(
        &[
            ("overlap", |f| {
                f.names[0] = Name { start: 0, len: 2 };
            }),
            ("the whole text", |f| f.names[0].len = f.text.len() as u32),
            ("unused text", |f| f.text.push(0)),
        ],
        true,
    );
}

#[test]
fn children_stand_directly_before_their_parent() {
    check(
        &[
            ("leaf of size 0", |f| f.nodes[0].size = 0),
            ("leaf of size 2", |f| f.nodes[3].size = 2),
            ("unary too big", |f| f.nodes[5].size = 3),
            ("binary too small", |f| f.nodes[7].size = 3),
            ("size over all", |f| f.nodes[7].size = u32::MAX),
            ("call with a count too few", |f| f.nodes[12].op = 1),
            ("call with a count too many", |f| f.nodes[12].op = 3),
            ("call with the largest count", |f| f.nodes[12].op = u32::MAX),
            ("call of an expression", |f| f.nodes[1].kind = node::UNARY),
            ("argument in an argument", |f| {
                f.nodes[0].kind = node::ARGUMENT
            }),
            ("argument under a unary", |f| f.nodes[2].kind = node::UNARY),
            ("binary without children", |f| {
                let span = Span::MISSING;
                f.nodes[0] = Node {
                    kind: node::BINARY,
                    name: 0,
                    op: u32::from(b'+'),
                    size: 3,
                    span,
                    number: 0,
                };
            }),
        ],
        false,
    );
}

#[test]
fn trees_fill_the_nodes_in_order() {
    check(
        &[
            ("left is right", |f| f.stmts[0].left = 3),
            ("right is left", |f| f.stmts[0].right = 2),
            ("left below the top", |f| f.stmts[0].left = 0),
            ("right out of range", |f| f.stmts[2].right = 13),
            ("right far out of range", |f| f.stmts[2].right = u32::MAX),
            ("right before left", |f| {
                f.stmts[0].left = 3;
                f.stmts[0].right = 2;
            }),
            ("rate equation of an earlier tree", |f| f.stmts[1].right = 3),
            ("statements in another order", |f| f.stmts.swap(0, 1)),
            ("submodel of an argument", |f| f.stmts[2].right = 11),
            ("submodel of a product", |f| {
                f.stmts[1].kind = stmt::SUBMODEL;
                f.stmts[1].name = 0;
            }),
            ("a tree too many", |f| {
                f.stmts.pop();
                f.models[1].stmts -= 1;
            }),
            ("a node behind the trees", |f| f.nodes.push(f.nodes[0])),
            ("an argument as a tree", |f| {
                f.nodes.pop();
                f.stmts[2].kind = stmt::EQUATION;
                f.stmts[2].left = 9;
                f.stmts[2].right = 11;
            }),
        ],
        false,
    );
}

#[test]
fn runs_fill_their_sections_in_order() {
    check(
        &[
            ("unknown's first", |f| f.unknowns[1].first = 1),
            ("empty run's first", |f| f.unknowns[2].first = 0),
            ("unknown's count", |f| f.unknowns[1].count = 1),
            ("count that wraps", |f| f.unknowns[1].count = u32::MAX),
            ("last unknown's count", |f| f.unknowns[4].count = 1),
            ("dependent too many", |f| f.dependents.push(0)),
            ("dependent too few", |f| f.dependents.truncate(1)),
            ("first unknown", |f| f.models[1].first_unknown = 0),
            ("unknowns", |f| f.models[1].unknowns -= 1),
            ("first statement", |f| f.models[0].first_stmt = 1),
            ("statements", |f| f.models[1].stmts += 1),
            ("statements of the first", |f| f.models[0].stmts = 1),
            ("no models", |f| f.models.clear()),
        ],
        false,
    );
    check(
        &[
            ("runs cut elsewhere", |f| {
                f.models[0].unknowns += 1;
                f.models[1].first_unknown += 1;
                f.models[1].unknowns -= 1;
            }),
            ("statements in the first model", |f| {
                f.models[0].stmts = 1;
                f.models[1].first_stmt = 1;
                f.models[1].stmts = 2;
            }),
        ],
        true,
    );
}

#[test]
fn spans_are_missing_or_in_order() {
    let backward = Span { start: 5, end: 4 };
    let half_missing = Span {
        start: MISSING,
        end: 7,
    };
    let present = Span {
        start: 7,
        end: MISSING,
    };
    for span in [backward, half_missing] {
        for place in 0..4 {
            let edited = with_span(place, span);
            assert_eq!(open(&edited), Err(BROKEN_LAYOUT), "place {place}");
        }
    }
    for span in [present, Span::MISSING, Span { start: 4, end: 4 }] {
        for place in 0..4 {
            let edited = with_span(place, span);
            assert_eq!(open(&edited), Ok(edited.clone()), "place {place}");
        }
    }
}

fn with_span(place: usize, span: Span) -> File {
    let mut f = file(WHOLE);
    match place {
        0 => f.nodes[3].span = span,
        1 => f.unknowns[2].span = span,
        2 => f.stmts[1].span = span,
        _ => f.models[1].span = span,
    }
    f
}

#[test]
fn any_float_bits_are_allowed() {
    check(
        &[
            ("NaN", |f| f.nodes[0].number = 0x7FF8_0000_0000_0001),
            ("infinity", |f| f.nodes[0].number = f64::INFINITY.to_bits()),
            ("NaN bounds", |f| {
                f.unknowns[4].lower = u64::MAX;
                f.unknowns[4].upper = u64::MAX;
            }),
            ("zero bounds", |f| {
                f.unknowns[4].lower = 0;
                f.unknowns[4].upper = 0;
            }),
        ],
        true,
    );
}

#[test]
fn short_files_and_other_forms_have_no_form() {
    assert_eq!(File::open(&[]), Err(NO_FORM));
    assert_eq!(File::open(&[0; 31]), Err(NO_FORM));
    let mut bytes = File::default().to_bytes();
    assert_eq!(bytes.len(), TRAILER);
    assert_eq!(File::open(&bytes), Ok(File::default()));
    for form in [0, 2, 0x101, 0x0100_0001, u32::MAX] {
        bytes[28..].copy_from_slice(&u32::to_le_bytes(form));
        assert_eq!(File::open(&bytes), Err(NO_FORM), "form {form}");
    }
}

#[test]
fn lengths_agree_with_the_counts() {
    let good = file(WHOLE).to_bytes();
    for count in 1..=good.len() - TRAILER {
        assert_eq!(File::open(&good[count..]), Err(BROKEN_LAYOUT));
    }
    let behind_models = good.len() - TRAILER;
    for place in [0, 1, behind_models] {
        let mut longer = good.clone();
        longer.insert(place, 0);
        assert_eq!(File::open(&longer), Err(BROKEN_LAYOUT), "byte at {place}");
    }
}

#[test]
fn a_count_over_its_most_comes_before_the_layout() {
    for (section, most) in MOSTS.iter().enumerate() {
        let mut bytes = File::default().to_bytes();
        let word = section * 4..section * 4 + 4;
        bytes[word.clone()].copy_from_slice(&most.to_le_bytes());
        assert_eq!(File::open(&bytes), Err(BROKEN_LAYOUT));
        for over in [most + 1, u32::MAX] {
            bytes[word.clone()].copy_from_slice(&over.to_le_bytes());
            assert_eq!(File::open(&bytes), Err(OVER_MOST));
        }
        bytes[28] = 0;
        assert_eq!(File::open(&bytes), Err(NO_FORM));
    }
}

fn one_section(section: usize, count: usize) -> File {
    let number = "1 + ".repeat(count.saturating_sub(2) / 2)
        + if count.is_multiple_of(2) { "1" } else { "-1" };
    match section {
        0 => File {
            text: vec![b'x'; count],
            ..File::default()
        },
        1 => File {
            text: (0..=255).chain([7, 8]).collect(),
            names: (0..count as u32)
                .map(|i| Name {
                    start: i,
                    len: 1 + i / 256,
                })
                .collect(),
            ..File::default()
        },
        2 => file(&format!("model m() {{ 1 = {number} }}")),
        3 => file(&format!(
            "model m(x({})) {{ }}",
            vec!["t"; count].join(", ")
        )),
        4 => file(&format!("model m({}) {{ }}", vec!["x"; count].join(", "))),
        5 => file(&format!("model m() {{ {} }}", "M();".repeat(count))),
        _ => file(&"model m() { }\n".repeat(count)),
    }
}

#[test]
fn each_section_passes_at_its_most_and_not_above() {
    for (section, most) in MOSTS.iter().enumerate() {
        let full = one_section(section, *most as usize);
        assert_eq!(full.counts()[section], *most as usize);
        assert_eq!(open(&full).as_ref(), Ok(&full), "section {section}");
        let over = one_section(section, *most as usize + 1);
        assert_eq!(over.counts()[section], *most as usize + 1);
        assert!(over.keeps_layout(), "section {section}");
        assert_eq!(open(&over), Err(OVER_MOST), "section {section}");
    }
}

#[test]
fn worked_examples_open() {
    for example in examples::ALL {
        let made = file(example.text);
        assert_eq!(open(&made).as_ref(), Ok(&made), "{}", example.label);
        assert!(made.find_name(example.root.as_bytes()).is_some());
        assert_eq!(Source::of_file(&made).assemble(), made);
    }
}

#[test]
fn runs_and_children_are_read_in_order() {
    let f = file(WHOLE);
    let root = &f.models[1];
    assert_eq!(f.name(root.name), b"root");
    assert_eq!(f.unknowns_of(root).len(), 4);
    assert_eq!(f.stmts_of(root).len(), 3);
    assert_eq!(f.stmts_of(&f.models[0]), []);
    let x = &f.unknowns_of(root)[0];
    let dependents: Vec<&[u8]> = f.dependents_of(x).iter().map(|d| f.name(*d)).collect();
    assert_eq!(dependents, [b"t", b"y"]);
    assert_eq!(f.children(12), [9, 11]);
    assert_eq!(f.children(7), [5, 6]);
    assert_eq!(f.children(1), [0]);
    assert_eq!(f.children(0), []);
}
