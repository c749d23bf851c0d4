//! What models wear: places in the source text, and names that are no text.

use crate::prng::Random;
use crate::vocabulary::{BUILT_INS, DOMAINS, ODD, RESERVED, TABLE_ONLY};
use treefile::source::{Domain, Expr, ExprKind, Model, Place, Source, StmtKind};

/// Visits the place of everything in some models.
fn each_place(source: &mut Source, visit: &mut dyn FnMut(&mut Place)) {
    for model in &mut source.models {
        visit(&mut model.span);
        for unknown in &mut model.unknowns {
            visit(&mut unknown.span);
        }
        for stmt in &mut model.stmts {
            visit(&mut stmt.span);
            for expr in sides(&mut stmt.kind) {
                each_place_below(expr, visit);
            }
        }
    }
}

/// The expressions of a statement.
fn sides(kind: &mut StmtKind) -> Vec<&mut Expr> {
    match kind {
        StmtKind::Equation(left, right) => vec![left, right],
        StmtKind::Rate(_, right) => vec![right],
        StmtKind::Submodel(call) => vec![call],
    }
}

fn each_place_below(expr: &mut Expr, visit: &mut dyn FnMut(&mut Place)) {
    visit(&mut expr.span);
    match &mut expr.kind {
        ExprKind::Name(_) | ExprKind::Number(_) => {}
        ExprKind::Binary(_, left, right) => {
            each_place_below(left, visit);
            each_place_below(right, visit);
        }
        ExprKind::Unary(_, child) => each_place_below(child, visit),
        ExprKind::Call(_, args) => {
            for arg in args {
                visit(&mut arg.span);
                each_place_below(&mut arg.value, visit);
            }
        }
    }
}

/// Gives everything a place: its own mostly, so that two places are never taken for each other; missing or extreme ones
/// at times.
pub fn places(random: &mut Random, source: &mut Source) {
    let (missing, extreme) =
        random.weighted(&[(60, (0, 0)), (22, (20, 0)), (12, (10, 20)), (6, (100, 0))]);
    let mut next = random.below(100) as u32;
    each_place(source, &mut |place| {
        *place = if random.chance(missing) {
            None
        } else if random.chance(extreme) {
            Some(extreme_place(random))
        } else {
            next += 1 + random.below(3) as u32;
            Some((next, next + random.below(20) as u32))
        };
    });
}

/// A place at the edge of what a span may be.
fn extreme_place(random: &mut Random) -> (u32, u32) {
    *random.pick(&[
        (0, 0),
        (0, u32::MAX),
        (u32::MAX - 1, u32::MAX),
        (u32::MAX - 1, u32::MAX - 1),
        (7, u32::MAX),
        (1 << 31, 1 << 31),
    ])
}

/// Visits every name in some models.
fn each_name(source: &mut Source, visit: &mut dyn FnMut(&mut Vec<u8>)) {
    for model in &mut source.models {
        each_declared(model, visit);
        for stmt in &mut model.stmts {
            if let StmtKind::Rate(name, _) = &mut stmt.kind {
                visit(name);
            }
            for expr in sides(&mut stmt.kind) {
                each_name_below(expr, visit);
            }
        }
    }
}

fn each_declared(model: &mut Model, visit: &mut dyn FnMut(&mut Vec<u8>)) {
    visit(&mut model.name);
    for unknown in &mut model.unknowns {
        visit(&mut unknown.name);
        unknown.dependents.iter_mut().for_each(&mut *visit);
        if let Domain::Named(name) = &mut unknown.domain {
            visit(name);
        }
    }
}

fn each_name_below(expr: &mut Expr, visit: &mut dyn FnMut(&mut Vec<u8>)) {
    match &mut expr.kind {
        ExprKind::Name(name) => visit(name),
        ExprKind::Number(_) => {}
        ExprKind::Binary(_, left, right) => {
            each_name_below(left, visit);
            each_name_below(right, visit);
        }
        ExprKind::Unary(_, child) => each_name_below(child, visit),
        ExprKind::Call(name, args) => {
            visit(name);
            for arg in args {
                arg.keyword.iter_mut().for_each(&mut *visit);
                each_name_below(&mut arg.value, visit);
            }
        }
    }
}

/// Whether a build looks at the name's text.
fn is_told_apart(name: &[u8]) -> bool {
    let mut functions = BUILT_INS.iter().chain(&TABLE_ONLY);
    name == b"t"
        || RESERVED.contains(&name)
        || DOMAINS.contains(&name)
        || functions.any(|(n, _)| *n == name)
}

/// Gives one name other bytes wherever it stands, the root's too.
pub fn rename(random: &mut Random, source: &mut Source, root: &mut Vec<u8>) {
    let mut names: Vec<Vec<u8>> = Vec::new();
    each_name(source, &mut |name| {
        if !names.contains(name) {
            names.push(name.clone());
        }
    });
    let new = random.pick(&ODD).to_vec();
    let old: Vec<&Vec<u8>> = names.iter().filter(|n| !is_told_apart(n)).collect();
    if old.is_empty() || names.contains(&new) {
        return;
    }
    let old = random.pick(&old).to_vec();
    each_name(source, &mut |name| {
        if *name == old {
            *name = new.clone();
        }
    });
    if *root == old {
        *root = new;
    }
}
