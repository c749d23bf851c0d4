//! Tests of the text form.

use super::{parse, print};
use crate::examples;
use crate::source::{Arg, Domain, Expr, ExprKind, Source, Stmt, StmtKind};

fn read(text: &str) -> Source {
    parse(text).unwrap_or_else(|error| panic!("{error} in {text}"))
}

/// The single statement of a model.
fn stmt(text: &str) -> Stmt {
    let source = read(&format!("model m(){{{text}}}"));
    source.models[0].stmts[0].clone()
}

/// A right side with every binary and unary in parentheses.
fn shape(text: &str) -> String {
    match stmt(&format!("0={text}")).kind {
        StmtKind::Equation(_, right) => bracketed(&right),
        other => panic!("no equation: {other:?}"),
    }
}

fn bracketed(e: &Expr) -> String {
    let arg = |a: &Arg| match &a.keyword {
        Some(k) => format!("{}={}", String::from_utf8_lossy(k), bracketed(&a.value)),
        None => bracketed(&a.value),
    };
    match &e.kind {
        ExprKind::Name(n) => String::from_utf8_lossy(n).into_owned(),
        ExprKind::Number(bits) => f64::from_bits(*bits).to_string(),
        ExprKind::Binary(op, l, r) => {
            format!("({}{}{})", bracketed(l), char::from(*op), bracketed(r))
        }
        ExprKind::Unary(op, c) => format!("({}{})", char::from(*op), bracketed(c)),
        ExprKind::Call(n, args) => {
            let args: Vec<String> = args.iter().map(arg).collect();
            format!("{}[{}]", String::from_utf8_lossy(n), args.join(","))
        }
    }
}

#[test]
fn precedence_and_association() {
    for (text, expected) in [
        ("1 - 2 - 3", "((1-2)-3)"),
        ("1 - (2 - 3)", "(1-(2-3))"),
        ("1 + 2 * 3 / 4", "(1+((2*3)/4))"),
        ("(1 + 2) * 3", "((1+2)*3)"),
        ("-k * x", "((-k)*x)"),
        ("-(k * x)", "(-(k*x))"),
        ("1 - -+x", "(1-(-(+x)))"),
        ("1 * -x + 2", "((1*(-x))+2)"),
        ("f(x, s = 1 + 2, g())", "f[x,s=(1+2),g[]]"),
        ("((x))", "x"),
    ] {
        assert_eq!(shape(text), expected);
    }
}

#[test]
fn statements() {
    let is_rate = |text| matches!(stmt(text).kind, StmtKind::Rate(..));
    let is_equation = |text| matches!(stmt(text).kind, StmtKind::Equation(..));
    let is_submodel = |text| matches!(stmt(text).kind, StmtKind::Submodel(_));
    assert!(is_rate("dot(x) = 1") && is_rate("dot(\"x y\") = 1"));
    assert!(is_equation("\"dot\"(x) = 1") && is_equation("dot(x) + 1 = 1"));
    assert!(is_equation("dot(-x) = 1") && is_equation("dot = 1"));
    assert!(is_submodel("dot(x)") && is_submodel("M()") && is_submodel("M(x, s = 2);"));
}

#[test]
fn numbers() {
    let bits = |text: &str| match stmt(&format!("0 = {text}")).kind {
        StmtKind::Equation(_, right) => right.kind,
        other => panic!("no equation: {other:?}"),
    };
    for (text, number) in [("1", 1.0), ("0.5", 0.5), ("1e3", 1e3), ("2.5E-3", 2.5e-3)] {
        assert_eq!(bits(text), ExprKind::Number(f64::to_bits(number)));
    }
    assert_eq!(bits("0x8000000000000000"), ExprKind::Number(1 << 63));
    assert_eq!(
        bits("0x7ff80000000000AB"),
        ExprKind::Number(0x7FF8_0000_0000_00AB)
    );
    assert_eq!(bits("inf"), ExprKind::Name(b"inf".to_vec()));
}

#[test]
fn domains() {
    let source = read(
        "model m(a, b -> R, c(x, y) -> (-1.5, +2), d -> (-inf, nan), e -> (-0, 0x8000000000000000)) {}",
    );
    let domains: Vec<Domain> = source.models[0]
        .unknowns
        .iter()
        .map(|u| u.domain.clone())
        .collect();
    let bits = f64::to_bits;
    let expected = [
        Domain::None,
        Domain::Named(b"R".to_vec()),
        Domain::Range(bits(-1.5), bits(2.0)),
        Domain::Range(bits(f64::NEG_INFINITY), 0x7FF8_0000_0000_0000),
        Domain::Range(1 << 63, 1 << 63),
    ];
    assert_eq!(domains, expected);
    assert_eq!(source.models[0].unknowns[2].dependents, [b"x", b"y"]);
}

#[test]
fn spans_reach_from_first_to_past_last() {
    let text = "model m(x(t) -> R) { (x + 1) * y(s = -2) = 3; M(x) } # end";
    let model = &read(text).models[0];
    let at = |place: Option<(u32, u32)>| {
        let (start, end) = place.expect("a place");
        &text[start as usize..end as usize]
    };
    assert_eq!(at(model.span), &text[..52]);
    assert_eq!(at(model.unknowns[0].span), "x(t) -> R");
    assert_eq!(at(model.stmts[0].span), "(x + 1) * y(s = -2) = 3");
    assert_eq!(at(model.stmts[1].span), "M(x)");
    let StmtKind::Equation(left, _) = &model.stmts[0].kind else {
        panic!("no equation");
    };
    assert_eq!(at(left.span), "(x + 1) * y(s = -2)");
    let ExprKind::Binary(_, sum, call) = &left.kind else {
        panic!("no product");
    };
    assert_eq!((at(sum.span), at(call.span)), ("(x + 1)", "y(s = -2)"));
    let ExprKind::Call(_, args) = &call.kind else {
        panic!("no call");
    };
    assert_eq!((at(args[0].span), at(args[0].value.span)), ("s = -2", "-2"));
}

#[test]
fn errors_have_a_place() {
    for (text, place, line, column) in [
        ("modl m() {}", 0, 1, 1),
        ("model m( {}", 9, 1, 10),
        ("model m() {\n  x = ; }", 18, 2, 7),
        ("model m() {\n\n x }", 16, 3, 4),
        ("model m() { x = 1 y = 2 }", 18, 1, 19),
        ("model m() { x = 1;", 18, 1, 19),
        ("model m() { x = 0x12; }", 16, 1, 17),
        ("model m() { x = 0x+123456789abcdef; }", 16, 1, 17),
        ("model m() { x = 1.; }", 18, 1, 19),
        ("model m() { x = 1e; }", 18, 1, 19),
        ("model m() { x = 2y; }", 17, 1, 18),
        ("model m() { \"é\" = \"\"; }", 19, 1, 19),
        ("model m() { \"\\xg0\" = 1 }", 13, 1, 14),
        ("model m() { \"a\n\" = 1 }", 14, 1, 15),
        ("model m() { f(1 = 2) }", 14, 1, 15),
        ("model m() { x ? 1 }", 14, 1, 15),
        ("model m(x -> (1, y)) {}", 17, 1, 18),
    ] {
        let error = parse(text).expect_err(text);
        assert_eq!(
            (error.place, error.line, error.column),
            (place, line, column),
            "{text}: {error}"
        );
        assert!(error
            .to_string()
            .starts_with(&format!("line {line}, column {column}: ")));
    }
}

#[test]
fn what_is_too_deep_or_too_long_is_an_error() {
    let deep = "(".repeat(100_000);
    assert!(parse(&format!("model m() {{ {deep}")).is_err());
    assert!(parse(&format!("model m() {{ x = {}x }}", "-".repeat(100_000))).is_err());
    assert!(parse(&format!("model m() {{ x = {}x }}", "x + ".repeat(100_000))).is_err());
    read(&format!("model m() {{ x = {}x }}", "-".repeat(1_100)));
    read(&format!("model m() {{ x = {}x }}", "x + ".repeat(2_000)));
}

/// A source with its places forgotten.
fn bare(source: &Source) -> Source {
    let mut bare = source.clone();
    for model in &mut bare.models {
        model.span = None;
        model.unknowns.iter_mut().for_each(|u| u.span = None);
        for stmt in &mut model.stmts {
            stmt.span = None;
            match &mut stmt.kind {
                StmtKind::Equation(left, right) => {
                    forget(left);
                    forget(right);
                }
                StmtKind::Rate(_, e) | StmtKind::Submodel(e) => forget(e),
            }
        }
    }
    bare
}

fn forget(e: &mut Expr) {
    e.span = None;
    match &mut e.kind {
        ExprKind::Name(_) | ExprKind::Number(_) => {}
        ExprKind::Binary(_, left, right) => {
            forget(left);
            forget(right);
        }
        ExprKind::Unary(_, child) => forget(child),
        ExprKind::Call(_, args) => {
            for arg in args {
                arg.span = None;
                forget(&mut arg.value);
            }
        }
    }
}

#[test]
fn printing_reads_back() {
    let odd = "model \"model x\"(inf, nan(t, \"\\x22\\x5c\\xff\"), x -> (nan, -inf), y -> (-0, 0xfff8000000000001)) {
        \"dot\"(x) = dot(x); dot(\"dot\") = 1 - (2 - 3) - -x * -(a / b) / (c * d); dot(x);
        (a + b) * (c - d) = 0x8000000000000000 + 0x7ff0000000000000 * 0.1 - 1e300 / 5e-324;
        --x(s = --1, 2) = 123456789012345680000 }
        model dot() { }";
    for text in examples::ALL.iter().map(|e| e.text).chain([odd]) {
        let source = read(text);
        let printed = print(&source);
        assert_eq!(bare(&read(&printed)), bare(&source), "{printed}");
    }
}
