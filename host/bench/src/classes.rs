//! The classes of files whose speed is wanted, and the two series by which growth is seen.

use crate::case::Class;
use crate::models;
use area::layout::MOST_BYTES;
use generate::prng::Random;
use generate::{blowups, limits, Case};
use oracle::{deep, judge, Answer};
use treefile::source::Source;

/// How many files the row of mixed ones has.
const MIXED: usize = 1260;

/// Every class, from small to large.
pub fn all() -> Vec<Class> {
    let mut classes = single();
    classes.push(mixed());
    classes
}

/// The classes of a single file.
fn single() -> Vec<Class> {
    let instances = Source {
        models: blowups::instances(&mut Random::new(1), 1024),
    };
    let chain = Source {
        models: blowups::deep_chain(32),
    };
    vec![
        Class::of("P1", &models::smallest()),
        Class::of("100 statements", &models::hundred()),
        Class::of("largest file", &limits::largest()),
        Class::of("32 models deep", &chain),
        Class::of("1,024 instances", &instances),
    ]
}

/// The class with a label; any other is the mixed one.
pub fn labelled(label: &str) -> Class {
    let found = single().into_iter().find(|class| class.label == label);
    found.unwrap_or_else(mixed)
}

/// Random files, by seeds from 1 on: those whose build is accepted and on which the original ends.
fn mixed() -> Class {
    let ends = |case: &Case| match judge(&case.bytes, &case.root, MOST_BYTES) {
        Ok(judged) => matches!(judged.answer, Answer::Area(_)) && !judged.endless,
        Err(_) => false,
    };
    let chosen = || (1..).map(generate::case).filter(ends).take(MIXED).collect();
    Class {
        label: "1,260 mixed files".to_string(),
        cases: deep::call(chosen),
    }
}

/// The statements double.
pub fn statements() -> Vec<Class> {
    let counts = [16, 32, 64, 128, 256];
    let class = |n: usize| Class::of(n.to_string(), &models::ring(n));
    counts.map(class).into()
}

/// The nesting doubles.
pub fn nesting() -> Vec<Class> {
    let class = |n: usize| {
        let models = blowups::deep_chain(n);
        Class::of(n.to_string(), &Source { models })
    };
    [1, 2, 4, 8, 16, 32].map(class).into()
}
