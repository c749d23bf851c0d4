//! Small cases for rules that are easily got wrong.

mod common;

use ::area::Area;
use common::{area, errors, fates, judge, refusal};
use oracle::Answer;

/// Text, kinds of errors, fates.
type Case = (&'static str, &'static [u32], &'static [u32]);

fn check(cases: &[Case]) {
    for (text, kinds, ends) in cases {
        let area = area(text);
        assert_eq!(errors(&area), *kinds, "{text}");
        assert_eq!(fates(&area), *ends, "{text}");
    }
}

#[test]
#[cfg_attr(no_source, ignore = "SKIPPED: the original source is not there")]
fn variables() {
    check(&[
        (
            "model root(t(x), x(t)) { dot(t) = 1; dot(x) = 1; x(0) = 1 }",
            &[16],
            &[2, 2, 1],
        ),
        ("model root(x -> Q) { }", &[1], &[]),
        ("model root(u -> Q, t -> Q) { }", &[1, 2, 1], &[]),
        ("model root(x(q)) { x = 1 }", &[15], &[4]),
        (
            "model root(x(t), x(y), y) { dot(x) = 1; x(0, 1) = 1 }",
            &[],
            &[2, 1],
        ),
        (
            "model root(x(t), x(t)) { dot(x) = 1; x(1, 0) = 1 }",
            &[],
            &[2, 1],
        ),
    ]);
}

#[test]
#[cfg_attr(no_source, ignore = "SKIPPED: the original source is not there")]
fn times_bounds_are_not_those_of_the_variable_t() {
    let bits = |lower: f64, upper: f64| [lower.to_bits(), upper.to_bits()];
    let built = area("model root(t -> (3, 4), t -> (1, 2), x -> NonNegative) { }");
    assert_eq!(built.time, bits(1.0, 2.0));
    assert_eq!(built.variables[0].bounds, bits(0.0, f64::INFINITY));
    assert_eq!(built.variables[1].bounds, bits(0.0, f64::INFINITY));
    let payload = area("model root(x -> (0x7ff8000000000123, 0xfff0000000000001)) { }");
    assert_eq!(
        payload.variables[1].bounds,
        [0x7ff8000000000123, 0xfff0000000000001]
    );
    let unbounded = area("model root(t -> R) { }");
    assert_eq!(unbounded.time, bits(f64::NEG_INFINITY, f64::INFINITY));
}

#[test]
#[cfg_attr(no_source, ignore = "SKIPPED: the original source is not there")]
fn time_is_unnamed_only_where_no_name_is_t() {
    assert_eq!(area("model root(x) { }").variables[0].name, 0);
    let elsewhere = area("model root(x) { } model N(t) { }");
    assert_ne!(elsewhere.variables[0].name, 0);
}

#[test]
#[cfg_attr(no_source, ignore = "SKIPPED: the original source is not there")]
fn reserved_names_do_not_list_themselves() {
    assert_eq!(refusal("model root(t(t)) { }"), 7);
    assert_eq!(refusal("model M(x(x)) { } model root() { M() }"), 7);
    assert_eq!(
        errors(&area("model M(x(x)) { } model root(F(F)) { N() }")),
        [2, 3]
    );
}

#[test]
#[cfg_attr(no_source, ignore = "SKIPPED: the original source is not there")]
fn submodels() {
    check(&[
        // The errors of each instance, then 4; a missing submodel gives 3 alone.
        (
            "model M(s, r) { s = q } model root() { M(k = 1, 2); M(1) }",
            &[5, 4, 5, 15],
            &[4, 4],
        ),
        ("model root() { N(k = 1, 2) }", &[3], &[]),
        ("model M(s) { s = 1 } model root(x(t)) { M(q) }", &[], &[2]),
        (
            "model M(s) { s = 1 } model root(x(t)) { M(s = 1, s = x(0)) }",
            &[14],
            &[1],
        ),
    ]);
}

/// The number of a positional argument counts the keywords before it.
#[test]
#[cfg_attr(no_source, ignore = "SKIPPED: the original source is not there")]
fn keywords_count_in_the_number_of_an_argument() {
    let call = |call| format!("model M(s) {{ s = 1 }} model root(x(t)) {{ M({call}) }}");
    assert_eq!(refusal(&call("s = 1, 0")), 8);
    assert_eq!(errors(&area(&call("0, s = x(0)"))), [14]);
    assert_eq!(errors(&area(&call("s = 1, q = 2"))), [0u32; 0]);
}

#[test]
#[cfg_attr(no_source, ignore = "SKIPPED: the original source is not there")]
fn substitution_is_simultaneous_and_leaves_names_of_calls_alone() {
    let text = "model M(a, b) { a = b; dot(a) = b(a = b) } model root(a(t), b(t)) { M(b, a) }";
    let swapped = area(text);
    let names: Vec<_> = swapped.nodes.iter().map(|node| node.name).collect();
    let judged = judge(
        "model root(a(t), b(t)) { b = a; dot(a) = b(a = a) }",
        "root",
    );
    let direct: Area = judged.area.unwrap();
    assert_eq!(names.len(), direct.nodes.len());
    let kinds = |area: &Area| {
        area.nodes
            .iter()
            .map(|node| (node.kind, node.size))
            .collect::<Vec<_>>()
    };
    assert_eq!(kinds(&swapped), kinds(&direct));
    assert_eq!(names[0], swapped.variables[2].name - 1);
    assert_eq!(names[1], swapped.variables[1].name - 1);
}

#[test]
#[cfg_attr(no_source, ignore = "SKIPPED: the original source is not there")]
fn an_unused_argument_is_not_counted() {
    let chain = |last: &str| {
        let mut text = format!("model M30(a) {{ {last} }}");
        for i in (0..30).rev() {
            text += &format!(" model M{i}(a) {{ M{}(a + a) }}", i + 1);
        }
        text + " model root(x) { M0(x) }"
    };
    assert_eq!(area(&chain("")).instances, 32);
    assert_eq!(area(&chain("1 = 1")).nodes.len(), 2);
    assert_eq!(refusal(&chain("a = 1")), 9);
}

#[test]
#[cfg_attr(no_source, ignore = "SKIPPED: the original source is not there")]
fn too_many_instances() {
    let tree = |levels: usize| {
        let mut text = String::from("model M0() { }");
        for i in 0..levels {
            text += &format!(" model M{}() {{ M{i}(); M{i}() }}", i + 1);
        }
        text + &format!(" model root() {{ M{levels}() }}")
    };
    assert_eq!(area(&tree(8)).instances, 512);
    assert_eq!(area(&tree(9)).instances, 1024);
    assert_eq!(refusal(&tree(10)), 9);
    assert_eq!(refusal(&tree(30)), 9);
}

#[test]
#[cfg_attr(no_source, ignore = "SKIPPED: the original source is not there")]
fn checks() {
    check(&[
        // Right before left; of a call 6, then 7, 8, 9, 10 or 11, then the arguments.
        ("model root(x) { p = q }", &[5, 5, 15], &[4]),
        (
            "model root(x(t)) { x = sin(a = p, q) }",
            &[6, 7, 5, 5],
            &[2],
        ),
        ("model root(x(t)) { x = x(a = 1, 2) }", &[8, 9, 10], &[2]),
        ("model root(x(t)) { x = max(1) }", &[6, 11], &[2]),
        (
            "model root(sin(t)) { dot(sin) = 1; sin(0) = 1 }",
            &[],
            &[2, 1],
        ),
        ("model root(x(t)) { x = piecewise(1, 2) }", &[6], &[2]),
        ("model root(x(t)) { x = interp1d(1, 2, 3, 4) }", &[6], &[2]),
    ]);
}

#[test]
#[cfg_attr(no_source, ignore = "SKIPPED: the original source is not there")]
fn the_name_of_a_keyword_in_a_built_in() {
    let built = area("model root(x(t)) { x = sin(a = x) + cos(b = x) }");
    let names: Vec<_> = built
        .errors
        .iter()
        .map(|error| (error.kind, error.name))
        .collect();
    assert_eq!(
        names.iter().map(|(kind, _)| *kind).collect::<Vec<_>>(),
        [7, 7]
    );
    assert_ne!(names[0].1, names[1].1);
    assert!(names.iter().all(|(_, name)| *name > 0));
}

#[test]
#[cfg_attr(no_source, ignore = "SKIPPED: the original source is not there")]
fn allocation() {
    check(&[
        // By place, whatever keyword it bears.
        (
            "model root(x(t)) { dot(x) = 1; x(t = 0) = 1 }",
            &[],
            &[2, 1],
        ),
        (
            "model root(x(y, t), y) { dot(x) = 1; x(t = 1, y = 0) = 1 }",
            &[],
            &[2, 1],
        ),
        // A statement with error 5, 12 or 13 stays among those left.
        ("model root(x(t)) { dot(q) = 1; x(0) = 1 }", &[5], &[2, 1]),
        ("model root(x(t)) { x(1) = 1 }", &[12], &[2]),
        ("model root(x(y), y) { dot(x) = 1 }", &[13, 16], &[2]),
        (
            "model root(x(t), y(t)) { x = 1; dot(q) = 1; x(0) = 1 }",
            &[5, 17, 16],
            &[2, 2, 1],
        ),
        ("model root(x(t)) { x = 1; x(0) = 1 }", &[17], &[2, 1]),
        (
            "model root(x(t), t -> (0x7ff8000000000000, 1)) { x(0) = 1 }",
            &[12],
            &[2],
        ),
    ]);
}

#[test]
#[cfg_attr(no_source, ignore = "SKIPPED: the original source is not there")]
fn refusal_10_is_judged_after_substitution_and_after_9() {
    assert_eq!(
        refusal("model M(s) { s = 1 } model root(x(t)) { M(x()) }"),
        10
    );
    assert_eq!(
        fates(&area("model M(x(t)) { x() = 1 } model root(y(t)) { M(y) }")),
        [2]
    );
    let long = "1+".repeat(520) + "1";
    let big =
        format!("model M(s) {{ s = 1 }} model root(x(t)) {{ x() = 1; M({long}); M({long}) }}");
    assert!(matches!(judge(&big, "root").answer, Answer::Refused(3 | 9)));
}

#[test]
#[cfg_attr(no_source, ignore = "SKIPPED: the original source is not there")]
fn a_diamond_of_dependents_and_a_cycle_without_rate_equation() {
    let mut unknowns = String::from("x30");
    for i in (0..30).rev() {
        unknowns += &format!(", x{i}(x{next}, x{next})", next = i + 1);
    }
    let slow = judge(&format!("model root({unknowns}) {{ dot(x0) = 1 }}"), "root");
    assert!(slow.endless);
    assert_eq!(errors(&slow.area.unwrap()), [13, 14]);
    let still = judge("model root(x(y), y(x)) { x = 1; y = 1 }", "root");
    assert!(!still.endless);
    assert_eq!(errors(&still.area.unwrap()), [0u32; 0]);
    let through = judge(
        "model root(x(y), y(x, t)) { dot(x) = 1; dot(y) = 1 }",
        "root",
    );
    assert!(!through.endless);
    let before = judge(
        "model root(x(y), y(z), z(y, w), w(t)) { dot(x) = 1 }",
        "root",
    );
    assert!(before.endless);
    assert_eq!(fates(&before.area.unwrap()), [2]);
}
