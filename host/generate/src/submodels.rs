//! Moving statements of a model into submodels, so that the flattened statements stay what they were.

use crate::make;
use crate::prng::Random;
use crate::vocabulary;
use crate::walk;
use treefile::records::MOSTS;
use treefile::source::{Arg, Domain, Expr, ExprKind, Model};

/// Moves statements of the last model into a new one, the last from then on, so many times: a nest so deep.
pub fn nest(random: &mut Random, models: &mut Vec<Model>, deep: usize) {
    for _ in 0..deep {
        let unknowns: usize = models.iter().map(|m| m.unknowns.len()).sum();
        let last = models.len() - 1;
        if unknowns + models[last].unknowns.len() + 3 > MOSTS[4] as usize {
            return;
        }
        outline(random, models, last);
    }
}

/// Moves a run of a model's statements into a new model at the end and calls it in their place.
pub fn outline(random: &mut Random, models: &mut Vec<Model>, from: usize) {
    let name = model_name(random, models);
    let caller = &mut models[from];
    let first = random.below(caller.stmts.len() + 1);
    let last = random.between(first, caller.stmts.len());
    let stmts = caller.stmts.drain(first..last).collect();
    let mut inner = make::model(&name, caller.unknowns.clone(), stmts);
    let passed = abstract_some(random, &mut inner);
    let args = arguments(random, &inner, passed);
    caller.stmts.insert(first, make::submodel(&name, args));
    models.push(inner);
}

fn model_name(random: &mut Random, models: &[Model]) -> Vec<u8> {
    let taken: Vec<Vec<u8>> = models.iter().map(|m| m.name.clone()).collect();
    let mut name = vec![b'A' + random.below(26) as u8];
    while taken.contains(&name) {
        name.push(b'0' + random.below(10) as u8);
    }
    name
}

/// Makes some expressions of a model arguments: each becomes a new unknown's name. Answers the unknowns' names with the
/// expressions that they stand for.
fn abstract_some(random: &mut Random, inner: &mut Model) -> Vec<(Vec<u8>, Expr)> {
    let mut passed = Vec::new();
    for _ in 0..random.weighted(&[(30, 0), (45, 1), (20, 2), (5, 3)]) {
        let mut taken: Vec<Vec<u8>> = inner.unknowns.iter().map(|u| u.name.clone()).collect();
        taken.extend(mentioned(inner));
        let fresh = vocabulary::fresh(random, &taken);
        let mut found = None;
        let any = |_: &Expr| true;
        let test: &dyn Fn(&Expr) -> bool = if random.chance(75) {
            &walk::is_leaf
        } else {
            &any
        };
        walk::change_one(random, inner, test, &mut |_, e| {
            found = Some(std::mem::replace(e, make::name(&fresh)));
        });
        if let Some(mut found) = found {
            if random.chance(92) {
                write_out(&mut found, &passed);
            }
            let at = random.below(inner.unknowns.len() + 1);
            let unknown = make::unknown(&fresh, &[], Domain::None);
            inner.unknowns.insert(at, unknown);
            passed.push((fresh, found));
        }
    }
    passed
}

/// Puts the earlier expressions back where a later one mentions them, since all arguments are put in at once.
fn write_out(expr: &mut Expr, passed: &[(Vec<u8>, Expr)]) {
    walk::each_below(expr, &mut |e| {
        if let ExprKind::Name(name) = &e.kind {
            if let Some((_, stands_for)) = passed.iter().find(|(n, _)| n == name) {
                *e = stands_for.clone();
            }
        }
    });
}

/// The names that a model's expressions mention.
fn mentioned(model: &mut Model) -> Vec<Vec<u8>> {
    let mut names = Vec::new();
    walk::each_expr(model, &mut |e| {
        if let ExprKind::Name(name) = &e.kind {
            names.push(name.clone());
        }
    });
    names
}

/// The arguments of the call: positional ones, then keywords; unknowns that stand for themselves may be left out.
fn arguments(random: &mut Random, inner: &Model, passed: Vec<(Vec<u8>, Expr)>) -> Vec<Arg> {
    let value = |name: &[u8]| {
        let own = || make::name(name);
        let found = passed.iter().rev().find(|(n, _)| n == name);
        found.map_or_else(own, |(_, e)| e.clone())
    };
    let positional = random.below(inner.unknowns.len() + 1);
    let mut args: Vec<Arg> = inner.unknowns[..positional]
        .iter()
        .map(|u| make::arg(value(&u.name)))
        .collect();
    let mut rest = inner.unknowns[positional..].to_vec();
    random.shuffle(&mut rest);
    for unknown in rest {
        if passed.iter().any(|(n, _)| *n == unknown.name) || random.chance(25) {
            args.push(make::keyword(&unknown.name, value(&unknown.name)));
        }
    }
    args
}
