//! Models with anything anywhere, over a few names so that they meet.

use crate::expressions::BINARY;
use crate::make;
use crate::models::domain;
use crate::prng::Random;
use crate::vocabulary::{self, NO_DOMAINS};
use treefile::source::{Arg, Domain, Expr, Model, Stmt, Unknown};

/// The names of variables and functions that meet; the first ones are met most.
const NAMES: [&[u8]; 20] = [
    b"x",
    b"t",
    b"y",
    b"z",
    b"s",
    b"k",
    b"sin",
    b"pow",
    b"log10",
    b"max",
    b"u",
    b"F",
    b"piecewise",
    b"interp1d",
    b"R",
    b"NonNegative",
    b"\xff",
    b"M",
    b"input",
    b"abs",
];

/// The names of models.
const MODELS: [&[u8]; 5] = [b"root", b"M", b"N", b"O", b"x"];

/// Some models with anything in them.
pub fn models(random: &mut Random) -> Vec<Model> {
    let count = random.weighted(&[(40, 1), (35, 2), (15, 3), (10, 4)]);
    let names = random.between(3, 10);
    let mut made: Vec<Model> = Vec::new();
    for i in 0..count {
        let wild = Wild {
            names,
            later: MODELS[i + 1..count].to_vec(),
        };
        let name = if i > 0 && random.chance(8) {
            MODELS[random.below(MODELS.len())]
        } else {
            MODELS[i]
        };
        let model = wild.model(random, name);
        made.push(model);
    }
    made
}

struct Wild {
    /// How many of the names are used.
    names: usize,
    /// The models that may be called without a cycle.
    later: Vec<&'static [u8]>,
}

impl Wild {
    /// A name; one that comes early mostly.
    fn name(&self, random: &mut Random) -> &'static [u8] {
        match random.below(10) {
            0 => NAMES[random.below(NAMES.len())],
            1..=4 => NAMES[random.below(self.names.min(4))],
            _ => NAMES[random.below(self.names)],
        }
    }

    fn model(&self, random: &mut Random, name: &[u8]) -> Model {
        let unknowns: Vec<Unknown> = (0..random.below(5)).map(|_| self.unknown(random)).collect();
        let stmts = (0..random.below(6))
            .map(|_| self.stmt(random, &unknowns))
            .collect();
        make::model(name, unknowns, stmts)
    }

    fn unknown(&self, random: &mut Random) -> Unknown {
        let name = self.name(random);
        let count = random.weighted(&[(35, 0), (40, 1), (20, 2), (5, 3)]);
        let mut dependents: Vec<&[u8]> = Vec::new();
        for _ in 0..count {
            let dependent = if random.chance(45) {
                b"t"
            } else {
                self.name(random)
            };
            if dependent != name || random.chance(4) {
                dependents.push(dependent);
            }
        }
        let domain = if random.chance(6) {
            Domain::Named(random.pick(&NO_DOMAINS).to_vec())
        } else {
            domain(random)
        };
        make::unknown(name, &dependents, domain)
    }

    fn stmt(&self, random: &mut Random, unknowns: &[Unknown]) -> Stmt {
        match random.below(10) {
            0..=2 => make::rate(self.name(random), self.expr(random, 2)),
            3 if !self.later.is_empty() || random.chance(20) => self.submodel(random),
            4 if !self.later.is_empty() => self.submodel(random),
            5..=7 if !unknowns.is_empty() => {
                let left = self.left(random, unknowns);
                make::equation(left, self.expr(random, 2))
            }
            _ => make::equation(self.expr(random, 2), self.expr(random, 2)),
        }
    }

    /// A call by a declared name with as many arguments as it has dependents, mostly.
    fn left(&self, random: &mut Random, unknowns: &[Unknown]) -> Expr {
        let unknown = random.pick(unknowns);
        let count = if random.chance(92) {
            unknown.dependents.len()
        } else {
            random.below(3)
        };
        let mut args = Vec::new();
        for _ in 0..count {
            let value = if random.chance(70) {
                make::number(0.0)
            } else {
                self.expr(random, 1)
            };
            args.push(self.arg(random, value, 10));
        }
        make::call(&unknown.name, args)
    }

    fn submodel(&self, random: &mut Random) -> Stmt {
        let name = if self.later.is_empty() || random.chance(5) {
            *random.pick(&MODELS)
        } else {
            *random.pick(&self.later)
        };
        let count = random.weighted(&[(40, 0), (35, 1), (18, 2), (7, 3)]);
        let mut args = Vec::new();
        for _ in 0..count {
            let value = self.expr(random, 1);
            args.push(self.arg(random, value, 60));
        }
        make::submodel(name, args)
    }

    fn arg(&self, random: &mut Random, value: Expr, keywords: usize) -> Arg {
        if random.chance(keywords) {
            make::keyword(self.name(random), value)
        } else {
            make::arg(value)
        }
    }

    fn expr(&self, random: &mut Random, depth: usize) -> Expr {
        if depth == 0 || random.chance(45) {
            return if random.chance(60) {
                make::name(self.name(random))
            } else {
                make::bits(vocabulary::bits(random))
            };
        }
        match random.below(4) {
            0 => make::unary(*random.pick(b"+-"), self.expr(random, depth - 1)),
            1 | 2 => make::binary(
                *random.pick(&BINARY),
                self.expr(random, depth - 1),
                self.expr(random, depth - 1),
            ),
            _ => {
                let mut args = Vec::new();
                for _ in 0..random.weighted(&[(15, 0), (55, 1), (20, 2), (10, 3)]) {
                    let value = self.expr(random, depth - 1);
                    args.push(self.arg(random, value, 15));
                }
                make::call(self.name(random), args)
            }
        }
    }
}
