//! Models that build without an error: states with rate equations and initial conditions, or with equations.

use crate::expressions::{condition, expr};
use crate::make;
use crate::prng::Random;
use crate::scope::{Scope, Var};
use crate::vocabulary::{self, BUILT_INS, DOMAINS, ODD, PLAIN, TABLE_ONLY};
use treefile::source::{Domain, Expr, ExprKind, Model, Stmt, Unknown};

/// How large a model is to be.
#[derive(Clone, Copy, Debug)]
pub struct Size {
    /// The most variables with dependents.
    pub states: usize,
    /// The most variables without.
    pub parameters: usize,
    /// How deep expressions go.
    pub depth: usize,
}

/// The sizes from small to large.
pub const SIZES: [Size; 4] = [
    Size {
        states: 1,
        parameters: 1,
        depth: 1,
    },
    Size {
        states: 2,
        parameters: 2,
        depth: 1,
    },
    Size {
        states: 4,
        parameters: 3,
        depth: 2,
    },
    Size {
        states: 9,
        parameters: 6,
        depth: 3,
    },
];

/// What a state is to hold.
#[derive(Clone, Copy, PartialEq)]
enum Holds {
    Rate,
    Equation,
}

/// A model that builds without an error.
pub fn right_model(random: &mut Random, name: &[u8], size: Size) -> Model {
    let least = usize::from(random.chance(95));
    let states = random.between(least, size.states);
    let parameters = random.between(0, size.parameters);
    let names = variable_names(random, states + parameters);
    let mut unknowns = Vec::new();
    let mut holds = Vec::new();
    for (i, name) in names.iter().enumerate() {
        if i < states {
            let (state, held) = state(random, name, &names);
            unknowns.push(state);
            holds.push((name.clone(), held));
        } else {
            unknowns.push(make::unknown(name, &[], domain(random)));
        }
    }
    random.shuffle(&mut unknowns);
    declare_time(random, &mut unknowns);
    if random.chance(3) && !names.is_empty() {
        let dependent = random.pick(&names);
        unknowns.push(make::unknown(b"t", &[dependent], Domain::None));
        holds.push((b"t".to_vec(), Holds::Equation));
    }
    let mut model = make::model(name, unknowns, Vec::new());
    let scope = Scope::of(&model);
    for (name, held) in holds {
        if let Some(at) = scope.find(&name) {
            hold(
                random,
                &scope,
                &scope.vars[at],
                held,
                size.depth,
                &mut model.stmts,
            );
        }
    }
    random.shuffle(&mut model.stmts);
    model
}

/// Distinct names, odd ones and names of functions among them at times.
fn variable_names(random: &mut Random, count: usize) -> Vec<Vec<u8>> {
    let mut pool: Vec<&[u8]> = PLAIN.to_vec();
    random.shuffle(&mut pool);
    let mut names: Vec<Vec<u8>> = Vec::new();
    while names.len() < count {
        let name = match random.below(100) {
            0..=88 => match pool.pop() {
                Some(plain) => plain.to_vec(),
                None => format!("n{}", random.below(1000)).into_bytes(),
            },
            89..=93 => random.pick(&ODD).to_vec(),
            94..=97 => random.pick(&BUILT_INS).0.to_vec(),
            _ => random.pick(&TABLE_ONLY).0.to_vec(),
        };
        if !names.contains(&name) {
            names.push(name);
        }
    }
    names
}

/// A state and what it is to hold. A rate equation wants a direct dependence on t, for its initial condition.
fn state(random: &mut Random, name: &[u8], names: &[Vec<u8>]) -> (Unknown, Holds) {
    let function = BUILT_INS
        .iter()
        .chain(&TABLE_ONLY)
        .find(|(n, _)| *n == name);
    let mut others: Vec<&[u8]> = names
        .iter()
        .map(|n| &n[..])
        .filter(|n| *n != name)
        .collect();
    others.push(b"t");
    let count = match function {
        Some((_, count)) => *count,
        None => random.weighted(&[(70, 1), (20, 2), (7, 3), (3, 4)]),
    };
    let mut dependents: Vec<&[u8]> = (0..count).map(|_| *random.pick(&others)).collect();
    let held = if random.chance(70) {
        let at = random.below(count);
        dependents[at] = b"t";
        Holds::Rate
    } else {
        Holds::Equation
    };
    if random.chance(8) {
        let at = random.below(dependents.len() + 1);
        dependents.insert(at, b"nowhere");
    }
    (make::unknown(name, &dependents, domain(random)), held)
}

/// A domain that exists, or none.
pub fn domain(random: &mut Random) -> Domain {
    match random.below(10) {
        0..=5 => Domain::None,
        6 | 7 => Domain::Named(random.pick(&DOMAINS).to_vec()),
        _ => Domain::Range(vocabulary::bits(random), vocabulary::bits(random)),
    }
}

/// Declares t in some models, twice in a few. A lower bound that is NaN would leave no initial condition.
fn declare_time(random: &mut Random, unknowns: &mut Vec<Unknown>) {
    let times = random.weighted(&[(55, 0), (38, 1), (7, 2)]);
    for _ in 0..times {
        let mut domain = domain(random);
        if let Domain::Range(lower, _) = &mut domain {
            if random.chance(50) {
                *lower = vocabulary::special_bits(random);
            }
            if f64::from_bits(*lower).is_nan() {
                *lower = f64::to_bits(-1.0);
            }
        }
        let at = random.below(unknowns.len() + 1);
        unknowns.insert(at, make::unknown(b"t", &[], domain));
    }
}

/// The statements by which a state holds what it is to hold.
fn hold(
    random: &mut Random,
    scope: &Scope,
    var: &Var,
    held: Holds,
    depth: usize,
    stmts: &mut Vec<Stmt>,
) {
    if held == Holds::Equation {
        let left = plain_left(random, scope, depth);
        stmts.push(make::equation(left, expr(random, scope, depth)));
        return;
    }
    for _ in 0..random.weighted(&[(85, 1), (12, 2), (3, 3)]) {
        stmts.push(make::rate(&var.name, expr(random, scope, depth)));
    }
    for _ in 0..random.weighted(&[(90, 1), (10, 2)]) {
        let left = condition(random, scope, var, depth.min(1));
        stmts.push(make::equation(left, expr(random, scope, depth)));
    }
}

/// A left side that is no initial condition: no call at the top, or one by a variable with a name in every place.
fn plain_left(random: &mut Random, scope: &Scope, depth: usize) -> Expr {
    let var = random.pick(&scope.vars);
    if random.chance(30) && var.is_callable() && !var.is_built_in() {
        let args = var.kept.iter().map(|_| {
            let name = &random.pick(&scope.vars).name;
            make::arg(make::name(name))
        });
        return make::call(&var.name, args.collect());
    }
    let left = expr(random, scope, depth);
    match left.kind {
        ExprKind::Call(..) => make::unary(b'-', left),
        _ => left,
    }
}
