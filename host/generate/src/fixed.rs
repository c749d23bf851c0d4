//! Hand-made files: the worked examples, the edges of every most, and the blow-ups.

use crate::prng::Random;
use crate::{blowups, limits, Case};
use treefile::records::MOSTS;
use treefile::source::{Model, Source};
use treefile::{examples, text, File};

fn of_bytes(label: &'static str, bytes: Vec<u8>) -> Case {
    Case {
        bytes,
        root: b"root".to_vec(),
        label,
    }
}

fn of_source(label: &'static str, source: &Source) -> Case {
    of_bytes(label, source.assemble().to_bytes())
}

fn of_models(label: &'static str, models: Vec<Model>) -> Case {
    of_source(label, &Source { models })
}

/// A case written in the text form; a text that does not read gives none.
fn of_text(label: &'static str, root: &str, written: &str) -> Option<Case> {
    let source = text::parse(written).ok()?;
    let mut case = of_source(label, &source);
    case.root = root.as_bytes().to_vec();
    Some(case)
}

/// Every hand-made case.
pub fn fixed() -> Vec<Case> {
    let mut cases = Vec::new();
    cases.extend(worked_examples());
    cases.extend(traps());
    cases.extend(short_files());
    cases.extend(edges());
    cases.extend(around_mosts());
    cases.extend(blow_ups());
    cases
}

fn worked_examples() -> Vec<Case> {
    let made = examples::ALL.map(|e| of_text(e.label, e.root, e.text));
    made.into_iter().flatten().collect()
}

/// Files for which a part of the description is easily misread: a label, then the models.
const TRAPS: [(&str, &str); 35] = [
    (
        "mixed leftovers paired",
        "model root(x(t), y(t)) { x = 1; dot(q) = 1; x(0) = 1 }",
    ),
    (
        "stuck on an argument",
        "model M(s) { s = 1 } model root(x(t)) { M(q) }",
    ),
    (
        "t as a state",
        "model root(t(k), k) { dot(t) = 1 }",
    ),
    (
        "t holds an equation",
        "model root(t(k), k, x(t)) { k = 1; dot(x) = t(k); x(0) = 1 }",
    ),
    (
        "t declared twice",
        "model root(t -> (5, 6), x(t), t -> (-1, 2)) { dot(x) = x; x(5) = 1 }",
    ),
    (
        "t lists itself",
        "model root(t(t)) { }",
    ),
    (
        "t on R",
        "model root(t -> R, x(t)) { dot(x) = x; x(0xfff0000000000000) = 1 }",
    ),
    (
        "t on an unknown domain",
        "model root(t -> Q, x(t)) { dot(x) = x; x(0xfff0000000000000) = 1 }",
    ),
    (
        "NaN start",
        "model root(t -> (nan, 1), x(t)) { dot(x) = x; x(0x7ff8000000000000) = 1 }",
    ),
    (
        "start from -0",
        "model root(t -> (-0, 1), x(t)) { dot(x) = x; x(0) = 1 }",
    ),
    (
        "joined dependents",
        "model root(x(t, k), k, x(t)) { dot(x) = x; x(0, k, 0) = 1; x(1, 2, 0) = 3 }",
    ),
    (
        "keyword of another place",
        "model root(x(k, t), k) { dot(x) = x; x(k = 1, t = 0) = 1; x(t = 0, k = 1) = 2 }",
    ),
    (
        "built-in as a state",
        "model root(sin(t), pow(t)) { dot(sin) = sin; sin(0) = 1; dot(pow) = 1; pow(0) = 1 }",
    ),
    (
        "reserved in everything",
        "model root(u(t), F -> Q, dudt, G(u), input(t)) { dot(u) = F; u(0) = 1; input() = G(u) }",
    ),
    (
        "positional after keyword",
        "model M(a, b, c, d) { a = b * c - d } model root(x(t)) { M(b = 1, x, a = 2, 3) }",
    ),
    (
        "positional counts keywords",
        "model M(a, b) { a = b } model root(x(t)) { M(b = 1, 2) }",
    ),
    (
        "positional beyond by a keyword",
        "model M(a) { x = a } model root(x(t)) { M(a = 1, 2) }",
    ),
    (
        "missing submodel",
        "model root(x(t)) { Missing(a = 1, 2); dot(x) = x; x(0) = 1 }",
    ),
    (
        "keyword that nothing declares",
        "model M(a, x) { x = q } model root(x(t), q) { M(q = 1, nowhere = 2) }",
    ),
    (
        "function names stay",
        "model M(f(t), g) { f(0) = g(f = g); dot(f) = f } model root(x(t), y(t)) { M(x, y); M(f = y) }",
    ),
    (
        "replacements at once",
        "model M(a, b) { a = b; b = a } model root(a(t), b(t)) { M(b, a) }",
    ),
    (
        "unknown declared twice as arguments",
        "model M(a, a) { x = a } model root(x(t)) { M(1, 2); M(a = 3, 4) }",
    ),
    (
        "submodel errors repeat",
        "model M(a -> Q) { M2(a) } model M2(b) { z = 1 } model root() { M(); M(1) }",
    ),
    (
        "first model of a name",
        "model M() { x = 1 } model M() { y = 1 } model root(x(t)) { M() } model root() { }",
    ),
    (
        "right side before left",
        "model root() { a(b) = c(d); sin() = pow(e = 1); max(1) = log10() }",
    ),
    (
        "two replaced",
        "model root(x(t)) { dot(x) = 1; x(0) = 1; dot(x) = 2; dot(x) = 3 }",
    ),
    (
        "rate of an indirect state",
        "model root(y(t), x(y)) { dot(x) = 1; dot(y) = 1; y(0) = 1 }",
    ),
    (
        "condition of an algebraic state",
        "model root(x(t)) { x(0) = 1; x(0) = 2; x = 3 }",
    ),
    (
        "cycle before t",
        "model root(x(y), y(x, t)) { dot(x) = 1; dot(y) = 1; y(1, 0) = 2 }",
    ),
    (
        "condition by an argument",
        "model M(a) { a = 1 } model root(x(t)) { M(x(0)); dot(x) = x }",
    ),
    (
        "short left by an argument",
        "model M(a) { a = 1 } model root(x(t)) { M(x()) }",
    ),
    (
        "short left of a built-in",
        "model root(sin(t)) { sin() = 1 }",
    ),
    (
        "short left in a submodel alone",
        "model M(y(t)) { y() = 1 } model root(x(t)) { M() }",
    ),
    (
        "faults that are not reached",
        "model Bad(x(x)) { Bad(1, 2, 3, 4); x() = 1 } model root() { }",
    ),
    (
        "lists itself in a submodel",
        "model M(y(y)) { } model root() { N() } model N(u(u)) { M() }",
    ),
];

fn traps() -> Vec<Case> {
    let made = TRAPS.map(|(label, written)| of_text(label, "root", written));
    made.into_iter().flatten().collect()
}

fn short_files() -> Vec<Case> {
    let trailer = File::default().to_bytes();
    let mut no_root = of_bytes("empty root name", trailer.clone());
    no_root.root = Vec::new();
    vec![
        of_bytes("empty file", Vec::new()),
        of_bytes("31 bytes", trailer[1..].to_vec()),
        of_bytes("31 zeros", vec![0; 31]),
        of_bytes("32 zeros", vec![0; 32]),
        of_bytes("trailer alone", trailer),
        no_root,
    ]
}

/// Every section one under, at and one over its most, and the largest file.
fn edges() -> Vec<Case> {
    const LABELS: [&str; 7] = [
        "text near its most",
        "names near their most",
        "nodes near their most",
        "dependents near their most",
        "unknowns near their most",
        "statements near their most",
        "models near their most",
    ];
    let mut cases = Vec::new();
    for (section, most) in MOSTS.iter().enumerate() {
        for count in [most - 1, *most, most + 1] {
            let source = limits::section(section, count as usize);
            cases.push(of_source(LABELS[section], &source));
        }
    }
    cases.push(of_source("largest file", &limits::largest()));
    cases.push(of_source("largest answer", &limits::largest_answer()));
    cases
}

/// Instances, flattened statements, flattened nodes and errors one under, at and one over their mosts.
fn around_mosts() -> Vec<Case> {
    let mut random = Random::new(1);
    let mut cases = Vec::new();
    for over in 0..3 {
        let made = blowups::instances(&mut random, 1023 + over);
        cases.push(of_models("instances near their most", made));
        let made = blowups::statements(&mut random, 255 + over);
        cases.push(of_models("flattened statements near their most", made));
        let made = blowups::nodes(&mut random, 1023 + over);
        cases.push(of_models("flattened nodes near their most", made));
        let made = blowups::errors(255 + over);
        cases.push(of_models("errors near what is listed", made));
    }
    cases
}

fn blow_ups() -> Vec<Case> {
    vec![
        of_models("31 models call twice", blowups::doubling_calls(31, 2)),
        of_models("16 models call 4 times", blowups::doubling_calls(16, 4)),
        of_models("16 models call 15 times", blowups::doubling_calls(16, 15)),
        of_models("9 models call twice", blowups::doubling_calls(9, 2)),
        of_models("10 models call twice", blowups::doubling_calls(10, 2)),
        of_models("31 used doublings", blowups::doubling_arguments(31, true)),
        of_models(
            "31 unused doublings",
            blowups::doubling_arguments(31, false),
        ),
        of_models("10 used doublings", blowups::doubling_arguments(10, true)),
        of_models("9 used doublings", blowups::doubling_arguments(9, true)),
        of_models("chain of 32 models", blowups::deep_chain(32)),
        of_models("300 errors", blowups::errors(300)),
    ]
}

#[cfg(test)]
mod tests {
    use super::*;

    #[test]
    fn every_text_reads() {
        assert_eq!(worked_examples().len(), examples::ALL.len());
        assert_eq!(traps().len(), TRAPS.len());
    }

    #[test]
    fn all_but_the_broken_ones_open() {
        let broken = fixed()
            .iter()
            .filter(|case| File::open(&case.bytes).is_err())
            .count();
        assert_eq!(broken, MOSTS.len() + 4);
    }
}
