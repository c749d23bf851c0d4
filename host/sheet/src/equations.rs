//! Flattened statements as text, from the answer's nodes.

use builder::{Answer, Equation, NodeKind, Span};
use treefile::source::{Arg, Expr, ExprKind, Place, Stmt, StmtKind};
use treefile::text::print_stmt;
use treefile::File;

/// A flattened statement in the text form.
pub(crate) fn flattened(file: &File, answer: &Answer, number: usize) -> String {
    let statement = &answer.statements[number];
    let tree = |node| expression(file, answer, node);
    let kind = match statement.equation {
        Equation::Plain { left, right } => StmtKind::Equation(tree(left), tree(right)),
        Equation::Rate { name, right } => StmtKind::Rate(file.name(name).to_vec(), tree(right)),
    };
    print_stmt(&Stmt {
        kind,
        span: place(statement.span),
    })
}

fn place(span: Option<Span>) -> Place {
    span.map(|span| (span.start, span.end))
}

fn expression(file: &File, answer: &Answer, node: u32) -> Expr {
    let children = answer.children(node);
    let child = |i: usize| Box::new(expression(file, answer, children[i]));
    let at = &answer.nodes[node as usize];
    let kind = match at.kind {
        NodeKind::Name(name) => ExprKind::Name(file.name(name).to_vec()),
        NodeKind::Number(bits) => ExprKind::Number(bits),
        NodeKind::Binary(op) => ExprKind::Binary(op, child(0), child(1)),
        NodeKind::Unary(op) => ExprKind::Unary(op, child(0)),
        NodeKind::Call { name, .. } => {
            let arguments = children.iter().map(|node| argument(file, answer, *node));
            ExprKind::Call(file.name(name).to_vec(), arguments.collect())
        }
        // an argument's own text is its value's; only a call's children are arguments
        NodeKind::Argument(_) => return *child(0),
    };
    Expr {
        kind,
        span: place(at.span),
    }
}

fn argument(file: &File, answer: &Answer, node: u32) -> Arg {
    let at = &answer.nodes[node as usize];
    let keyword = match at.kind {
        NodeKind::Argument(keyword) => keyword,
        _ => None,
    };
    Arg {
        keyword: keyword.map(|name| file.name(name).to_vec()),
        value: expression(file, answer, answer.children(node)[0]),
        span: place(at.span),
    }
}
