//! The cases whose stack is measured.

use crate::case::Class;
use crate::models::{below, smallest};
use generate::{blowups, make};
use treefile::source::{Expr, Source};

/// Random files of this many seeds, refused and damaged ones too.
const RANDOM: u64 = 10_000;

/// Deep and wide trees, at the top and at the end of a chain of models; then all hand-made and many random files.
pub fn all() -> Vec<Class> {
    let x = || make::name(b"x");
    let chain = Source {
        models: blowups::deep_chain(32),
    };
    vec![
        Class::of("P1", &smallest()),
        Class::of("chain of 32 models", &chain),
        Class::of("1,016 signs nested", &below(1, make::chain(x(), 1017))),
        Class::of("508 calls nested", &below(1, calls(508))),
        Class::of("a call with 508 arguments", &below(1, wide(508))),
        Class::of(
            "32 models, 926 signs nested",
            &below(32, make::chain(x(), 926)),
        ),
        Class::of("32 models, 462 calls nested", &below(32, calls(462))),
        Class::of(
            "32 models, a call with 462 arguments",
            &below(32, wide(462)),
        ),
        Class {
            label: "hand-made files".to_string(),
            cases: generate::fixed(),
        },
        Class {
            label: "10,000 random files".to_string(),
            cases: (1..=RANDOM).map(generate::case).collect(),
        },
    ]
}

/// So many calls in one another.
fn calls(deep: usize) -> Expr {
    let call = |inner, _| make::call(b"exp", vec![make::arg(inner)]);
    (0..deep).fold(make::name(b"x"), call)
}

/// A call with so many arguments.
fn wide(count: usize) -> Expr {
    let args = (0..count).map(|_| make::arg(make::name(b"x")));
    make::call(b"exp", args.collect())
}
