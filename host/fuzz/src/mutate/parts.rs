//! Parts of one file's models among another's: models, unknowns, statements and expressions, laid out anew.

use generate::prng::Random;
use generate::walk;
use treefile::source::{Arg, Expr, ExprKind, Model, Source, StmtKind};
use treefile::File;

/// The models of a file that opens, with one to four parts changed; where the other opens too, parts of it come in.
pub fn mix(random: &mut Random, bytes: &[u8], other: &[u8]) -> Option<Vec<u8>> {
    let mut own = Source::of_file(&File::open(bytes).ok()?);
    let other = match File::open(other) {
        Ok(file) => Source::of_file(&file),
        Err(_) => own.clone(),
    };
    for _ in 0..random.between(1, 4) {
        one(random, &mut own, &other);
    }
    Some(own.assemble().to_bytes())
}

fn one(random: &mut Random, own: &mut Source, other: &Source) {
    if own.models.is_empty() || other.models.is_empty() {
        own.models.extend(other.models.iter().take(1).cloned());
        return;
    }
    let theirs = random.pick(&other.models).clone();
    let (at, several) = (random.below(own.models.len()), own.models.len() > 1);
    let model = &mut own.models[at];
    match random.below(16) {
        0 => own.models.insert(at, theirs),
        1 if several => drop(own.models.remove(at)),
        2 => random.shuffle(&mut model.stmts),
        3 => random.shuffle(&mut model.unknowns),
        4..=6 => insert(random, &mut model.stmts, &theirs.stmts),
        7 | 8 => remove(random, &mut model.stmts),
        9 => insert(random, &mut model.unknowns, &theirs.unknowns),
        10 => remove(random, &mut model.unknowns),
        11 => double(random, &mut model.stmts),
        12 => dependents(random, model, &theirs),
        13 => arguments(random, model, &theirs),
        14 => to_call(random, own, at),
        _ => expression(random, model, theirs),
    }
}

fn insert<T: Clone>(random: &mut Random, items: &mut Vec<T>, from: &[T]) {
    if !from.is_empty() {
        let item = random.pick(from).clone();
        items.insert(random.below(items.len() + 1), item);
    }
}

fn remove<T>(random: &mut Random, items: &mut Vec<T>) {
    if !items.is_empty() {
        items.remove(random.below(items.len()));
    }
}

fn double<T: Clone>(random: &mut Random, items: &mut Vec<T>) {
    let copy = items.clone();
    insert(random, items, &copy);
}

/// A dependent comes in or goes.
fn dependents(random: &mut Random, model: &mut Model, theirs: &Model) {
    if model.unknowns.is_empty() {
        return;
    }
    let mut names: Vec<Vec<u8>> = vec![b"t".to_vec()];
    let unknowns = model.unknowns.iter().chain(&theirs.unknowns);
    names.extend(unknowns.map(|unknown| unknown.name.clone()));
    let at = random.below(model.unknowns.len());
    let list = &mut model.unknowns[at].dependents;
    match random.chance(60) {
        true => insert(random, list, &names),
        false => remove(random, list),
    }
}

/// A call's argument comes in, goes, is doubled or gets a keyword.
fn arguments(random: &mut Random, model: &mut Model, theirs: &Model) {
    let names: Vec<Vec<u8>> = theirs.unknowns.iter().map(|u| u.name.clone()).collect();
    let mut change = |random: &mut Random, expr: &mut Expr| {
        let ExprKind::Call(_, args) = &mut expr.kind else {
            return;
        };
        match random.below(4) {
            0 => remove(random, args),
            1 => double(random, args),
            2 if !names.is_empty() => {
                let name = random.pick(&names).clone();
                args.push(Arg {
                    keyword: random.chance(50).then(|| name.clone()),
                    value: Expr {
                        kind: ExprKind::Name(name),
                        span: None,
                    },
                    span: None,
                });
            }
            _ if !args.is_empty() => {
                let at = random.below(args.len());
                args[at].keyword = match args[at].keyword {
                    None if !names.is_empty() => Some(random.pick(&names).clone()),
                    _ => None,
                };
            }
            _ => (),
        }
    };
    let submodels: Vec<usize> = walk::stmts_where(model, walk::is_submodel);
    if !submodels.is_empty() && random.chance(50) {
        let at = *random.pick(&submodels);
        if let StmtKind::Submodel(call) = &mut model.stmts[at].kind {
            change(random, call);
        }
        return;
    }
    let is_call = |expr: &Expr| matches!(expr.kind, ExprKind::Call(..));
    walk::change_one(random, model, &is_call, &mut change);
}

/// A submodel statement of the model is led to another model.
fn to_call(random: &mut Random, own: &mut Source, at: usize) {
    let name = random.pick(&own.models).name.clone();
    let submodels = walk::stmts_where(&own.models[at], walk::is_submodel);
    let call = Expr {
        kind: ExprKind::Call(name.clone(), Vec::new()),
        span: None,
    };
    if submodels.is_empty() {
        let stmt = treefile::source::Stmt {
            kind: StmtKind::Submodel(call),
            span: None,
        };
        own.models[at].stmts.push(stmt);
    } else {
        let chosen = *random.pick(&submodels);
        if let StmtKind::Submodel(call) = &mut own.models[at].stmts[chosen].kind {
            if let ExprKind::Call(called, _) = &mut call.kind {
                *called = name;
            }
        }
    }
}

/// An expression is replaced by one of the other's, or takes one of them beside it.
fn expression(random: &mut Random, model: &mut Model, mut theirs: Model) {
    let mut all = Vec::new();
    walk::each_expr(&mut theirs, &mut |expr| all.push(expr.clone()));
    if all.is_empty() {
        return;
    }
    let new = random.pick(&all).clone();
    let beside = random.chance(25);
    walk::change_one(random, model, &|_| true, &mut |random, expr| {
        let old = expr.clone();
        expr.kind = match beside {
            true => ExprKind::Binary(*random.pick(b"+-*/"), Box::new(old), Box::new(new.clone())),
            false => new.kind.clone(),
        };
    });
}
