//! From the records of a file to models as trees.

use super::{Arg, Domain, Expr, ExprKind, Model, Place, Source, Stmt, StmtKind, Unknown};
use crate::records::{self, domain, node, stmt, File, Span};

impl Source {
    /// The models of a file that keeps its layout.
    pub fn of_file(file: &File) -> Source {
        Source {
            models: file.models.iter().map(|m| model(file, m)).collect(),
        }
    }
}

fn place(span: Span) -> Place {
    (!span.is_missing()).then_some((span.start, span.end))
}

fn name(file: &File, number: u32) -> Vec<u8> {
    file.name(number).to_vec()
}

fn model(file: &File, m: &records::Model) -> Model {
    let unknowns = file.unknowns_of(m).iter();
    let stmts = file.stmts_of(m).iter();
    Model {
        name: name(file, m.name),
        unknowns: unknowns.map(|u| unknown(file, u)).collect(),
        stmts: stmts.map(|s| statement(file, s)).collect(),
        span: place(m.span),
    }
}

fn unknown(file: &File, u: &records::Unknown) -> Unknown {
    let dependents = file.dependents_of(u).iter();
    Unknown {
        name: name(file, u.name),
        dependents: dependents.map(|d| name(file, *d)).collect(),
        domain: match u.domain {
            domain::RANGE => Domain::Range(u.lower, u.upper),
            domain::NAMED => Domain::Named(name(file, u.lower as u32)),
            _ => Domain::None,
        },
        span: place(u.span),
    }
}

fn statement(file: &File, s: &records::Stmt) -> Stmt {
    let right = expr(file, s.right as usize);
    Stmt {
        kind: match s.kind {
            stmt::EQUATION => StmtKind::Equation(expr(file, s.left as usize), right),
            stmt::RATE => StmtKind::Rate(name(file, s.name), right),
            _ => StmtKind::Submodel(right),
        },
        span: place(s.span),
    }
}

fn expr(file: &File, i: usize) -> Expr {
    let n = &file.nodes[i];
    let child = |c: usize| Box::new(expr(file, c));
    let children = file.children(i);
    let kind = match n.kind {
        node::NAME => ExprKind::Name(name(file, n.name)),
        node::BINARY => ExprKind::Binary(n.op as u8, child(children[0]), child(children[1])),
        node::UNARY => ExprKind::Unary(n.op as u8, child(children[0])),
        node::CALL => ExprKind::Call(
            name(file, n.name),
            children.iter().map(|c| arg(file, *c)).collect(),
        ),
        _ => ExprKind::Number(n.number),
    };
    Expr {
        kind,
        span: place(n.span),
    }
}

fn arg(file: &File, i: usize) -> Arg {
    let n = &file.nodes[i];
    Arg {
        keyword: n.name.checked_sub(1).map(|number| name(file, number)),
        value: expr(file, i - 1),
        span: place(n.span),
    }
}
