//! Changing one expression or one statement of a model, found by a test.

use crate::prng::Random;
use treefile::source::{Expr, ExprKind, Model, StmtKind};

/// Visits every expression of a model, children first; a submodel statement's call itself is left out, since it must
/// stay a call.
pub fn each_expr(model: &mut Model, visit: &mut dyn FnMut(&mut Expr)) {
    for stmt in &mut model.stmts {
        match &mut stmt.kind {
            StmtKind::Equation(left, right) => {
                each_below(left, visit);
                each_below(right, visit);
            }
            StmtKind::Rate(_, right) => each_below(right, visit),
            StmtKind::Submodel(call) => each_child(call, visit),
        }
    }
}

/// Visits an expression and every one below it, children first.
pub fn each_below(expr: &mut Expr, visit: &mut dyn FnMut(&mut Expr)) {
    each_child(expr, visit);
    visit(expr);
}

fn each_child(expr: &mut Expr, visit: &mut dyn FnMut(&mut Expr)) {
    match &mut expr.kind {
        ExprKind::Name(_) | ExprKind::Number(_) => {}
        ExprKind::Binary(_, left, right) => {
            each_below(left, visit);
            each_below(right, visit);
        }
        ExprKind::Unary(_, child) => each_below(child, visit),
        ExprKind::Call(_, args) => {
            for arg in args {
                each_below(&mut arg.value, visit);
            }
        }
    }
}

/// Changes one random expression among those that pass a test; answers whether there was one.
pub fn change_one(
    random: &mut Random,
    model: &mut Model,
    test: &dyn Fn(&Expr) -> bool,
    change: &mut dyn FnMut(&mut Random, &mut Expr),
) -> bool {
    let mut count = 0;
    each_expr(model, &mut |e| count += usize::from(test(e)));
    let chosen = random.below(count);
    let mut at = 0;
    each_expr(model, &mut |e| {
        if test(e) {
            if at == chosen {
                change(random, e);
            }
            at += 1;
        }
    });
    count > 0
}

/// Whether an expression is a name or a number.
pub fn is_leaf(expr: &Expr) -> bool {
    matches!(expr.kind, ExprKind::Name(_) | ExprKind::Number(_))
}

/// The numbers of the statements that pass a test.
pub fn stmts_where(model: &Model, test: fn(&StmtKind) -> bool) -> Vec<usize> {
    (0..model.stmts.len())
        .filter(|i| test(&model.stmts[*i].kind))
        .collect()
}

/// Whether a statement is an equation with a call on its left side.
pub fn has_call_left(kind: &StmtKind) -> bool {
    matches!(kind, StmtKind::Equation(left, _) if matches!(left.kind, ExprKind::Call(..)))
}

/// Whether a statement is a submodel statement.
pub fn is_submodel(kind: &StmtKind) -> bool {
    matches!(kind, StmtKind::Submodel(_))
}
