//! Tests of assembling and its way back.

use super::{Expr, ExprKind, Model, Source, Stmt, StmtKind};
use crate::text::parse;
use crate::{examples, File};

const LONG: &str = "model M(s, s(t, q) -> (nan, -inf)) { s(s = s, 1) = -s * (s - 2) / s() }
    model root(x(t) -> R, \"\\xff\\x00\") { M(x, q = -x, \"\\xff\\x00\"); dot(x) = +x; x = x }";

#[test]
fn assembling_keeps_every_tree() {
    for text in examples::ALL.iter().map(|e| e.text).chain([LONG, ""]) {
        let source = parse(text).expect("the text form reads");
        let file = source.assemble();
        assert_eq!(Source::of_file(&file), source);
        assert_eq!(File::open(&file.to_bytes()), Ok(file));
    }
}

#[test]
fn names_are_kept_once_in_order_of_first_use() {
    let file = parse(examples::P8).expect("the text form reads").assemble();
    assert_eq!(file.text, b"Msxtroot");
    let names: Vec<&[u8]> = (0..5).map(|n| file.name(n)).collect();
    assert_eq!(names, [&b"M"[..], b"s", b"x", b"t", b"root"]);
}

#[test]
fn missing_places_become_missing_spans() {
    let number = |bits| Expr {
        kind: ExprKind::Number(bits),
        span: None,
    };
    let source = Source {
        models: vec![Model {
            name: b"m".to_vec(),
            unknowns: Vec::new(),
            stmts: vec![Stmt {
                kind: StmtKind::Equation(number(1), number(u64::MAX)),
                span: None,
            }],
            span: None,
        }],
    };
    let file = source.assemble();
    assert!(file.nodes.iter().all(|n| n.span.is_missing()));
    assert!(file.stmts[0].span.is_missing() && file.models[0].span.is_missing());
    assert_eq!(Source::of_file(&file), source);
}

#[test]
#[should_panic(expected = "a name must have a byte or more")]
fn an_empty_name_is_no_name() {
    let model = Model {
        name: Vec::new(),
        unknowns: Vec::new(),
        stmts: Vec::new(),
        span: None,
    };
    let _ = Source {
        models: vec![model],
    }
    .assemble();
}
