//! Short ways to make models, without places.

use treefile::source::{Arg, Domain, Expr, ExprKind, Model, Stmt, StmtKind, Unknown};

fn expr(kind: ExprKind) -> Expr {
    Expr { kind, span: None }
}

/// A name as an expression.
pub fn name(bytes: &[u8]) -> Expr {
    expr(ExprKind::Name(bytes.to_vec()))
}

/// A number.
pub fn number(value: f64) -> Expr {
    bits(value.to_bits())
}

/// A number by its bits.
pub fn bits(bits: u64) -> Expr {
    expr(ExprKind::Number(bits))
}

/// A binary expression.
pub fn binary(op: u8, left: Expr, right: Expr) -> Expr {
    expr(ExprKind::Binary(op, Box::new(left), Box::new(right)))
}

/// A unary expression.
pub fn unary(op: u8, child: Expr) -> Expr {
    expr(ExprKind::Unary(op, Box::new(child)))
}

/// A tree of exactly so many nodes: one leaf under signs.
pub fn chain(leaf: Expr, nodes: usize) -> Expr {
    (1..nodes).fold(leaf, |child, _| unary(b'-', child))
}

/// A call.
pub fn call(name: &[u8], args: Vec<Arg>) -> Expr {
    expr(ExprKind::Call(name.to_vec(), args))
}

/// A positional argument.
pub fn arg(value: Expr) -> Arg {
    Arg {
        keyword: None,
        value,
        span: None,
    }
}

/// An argument with a keyword.
pub fn keyword(name: &[u8], value: Expr) -> Arg {
    Arg {
        keyword: Some(name.to_vec()),
        value,
        span: None,
    }
}

/// An unknown.
pub fn unknown(name: &[u8], dependents: &[&[u8]], domain: Domain) -> Unknown {
    Unknown {
        name: name.to_vec(),
        dependents: dependents.iter().map(|d| d.to_vec()).collect(),
        domain,
        span: None,
    }
}

fn stmt(kind: StmtKind) -> Stmt {
    Stmt { kind, span: None }
}

/// An equation.
pub fn equation(left: Expr, right: Expr) -> Stmt {
    stmt(StmtKind::Equation(left, right))
}

/// A rate equation.
pub fn rate(name: &[u8], right: Expr) -> Stmt {
    stmt(StmtKind::Rate(name.to_vec(), right))
}

/// A submodel statement.
pub fn submodel(name: &[u8], args: Vec<Arg>) -> Stmt {
    stmt(StmtKind::Submodel(call(name, args)))
}

/// A model.
pub fn model(name: &[u8], unknowns: Vec<Unknown>, stmts: Vec<Stmt>) -> Model {
    Model {
        name: name.to_vec(),
        unknowns,
        stmts,
        span: None,
    }
}
