//! From the original's results to plain data.

use crate::ast::{Ast, AstKind, StringSpan};
use crate::continuous::builder::{self, access, BoundaryCondition, ModelInfo, Output};
use crate::messages;
use crate::texts::Texts;
use report::{Built, Condition, Error, Flat, Variable};
use std::cell::RefCell;
use std::rc::Rc;
use treefile::records::{node, stmt};
use treefile::{Node, Span};

type Cell<'s> = Rc<RefCell<builder::Variable<'s>>>;

/// The end of a build; asks for time-dependence where `walks` names the variable.
pub fn built<'s>(info: &ModelInfo<'s>, texts: &Texts, walks: &[Option<u32>]) -> Built {
    let cells = access::variables(info);
    let number = |cell: &Cell<'s>| cells.iter().position(|other| Rc::ptr_eq(other, cell));
    let mut variables = Vec::new();
    for cell in &cells {
        let v = cell.borrow();
        let name = texts.number(v.name);
        let dependents = v.dependents.iter().map(number).collect::<Option<_>>();
        variables.push(Variable {
            name,
            dependents: dependents.expect("variables of the map"),
            time_index: v.time_index,
            bounds: bits(v.bounds),
            state: v.is_state(),
            time_dependent: walks.contains(&name).then(|| v.is_time_dependent()),
            equation: v.equation.as_ref().map(|equation| flat(equation, texts)),
            conditions: conditions(&v, texts),
        });
    }
    let errors = info.errors.iter().map(|output| error(output, texts));
    Built {
        variables,
        time: bits(info.time.borrow().bounds),
        errors: errors.collect(),
    }
}

fn conditions(variable: &builder::Variable, texts: &Texts) -> Vec<Condition> {
    let condition = |condition: &BoundaryCondition| Condition {
        location: condition.location.to_bits(),
        right: tree(&condition.equation, texts),
    };
    variable.init_conditions.iter().map(condition).collect()
}

/// The bits of a pair of bounds.
pub fn bits(bounds: (f64, f64)) -> [u64; 2] {
    [bounds.0.to_bits(), bounds.1.to_bits()]
}

/// An error, taken apart.
pub fn error(output: &Output, texts: &Texts) -> Error {
    let (kind, text) = messages::parse(&output.text);
    let name = text.and_then(|text| texts.number(text));
    let known = text.is_some() == name.is_some();
    let span = span(output.source_ref);
    Error {
        kind: if known { kind } else { 0 },
        span: (span.start, span.end),
        name,
    }
}

/// A span, which may be missing.
pub fn span(span: Option<StringSpan>) -> Span {
    span.map_or(Span::MISSING, |s| Span {
        start: s.pos_start as u32,
        end: s.pos_end as u32,
    })
}

/// A flattened statement.
pub fn flat(ast: &Ast, texts: &Texts) -> Flat {
    let number = |text| texts.number(text).expect("a name of the file");
    let (kind, name, left, right) = match &ast.kind {
        AstKind::Equation(eqn) => (stmt::EQUATION, 0, tree(&eqn.lhs, texts), &eqn.rhs),
        AstKind::RateEquation(eqn) => (stmt::RATE, number(eqn.name), Vec::new(), &eqn.rhs),
        _ => unreachable!("a flattened statement is an equation or a rate equation"),
    };
    Flat {
        kind,
        name,
        left,
        right: tree(right, texts),
        span: span(ast.span),
    }
}

/// The address of a statement's right side, which stays when the statement is moved.
pub fn address(ast: &Ast) -> *const () {
    let right = match &ast.kind {
        AstKind::Equation(eqn) => &eqn.rhs,
        AstKind::RateEquation(eqn) => &eqn.rhs,
        _ => unreachable!("a flattened statement is an equation or a rate equation"),
    };
    std::ptr::from_ref::<Ast>(right).cast()
}

/// A tree as a run of nodes.
pub fn tree(ast: &Ast, texts: &Texts) -> Vec<Node> {
    let mut nodes = Vec::new();
    push(ast, texts, &mut nodes);
    nodes
}

fn push(ast: &Ast, texts: &Texts, nodes: &mut Vec<Node>) {
    let start = nodes.len();
    let number = |text| texts.number(text).expect("a name of the file");
    let mut below = |child: &Ast| push(child, texts, nodes);
    let (kind, name, op, value) = match &ast.kind {
        AstKind::Name(name) => (node::NAME, number(name.name), 0, 0),
        AstKind::Number(value) => (node::NUMBER, 0, 0, value.to_bits()),
        AstKind::Binop(binop) => {
            below(&binop.left);
            below(&binop.right);
            (node::BINARY, 0, binop.op as u32, 0)
        }
        AstKind::Monop(monop) => {
            below(&monop.child);
            (node::UNARY, 0, monop.op as u32, 0)
        }
        AstKind::Call(call) => {
            call.args.iter().for_each(|arg| below(arg));
            (node::CALL, number(call.fn_name), call.args.len() as u32, 0)
        }
        AstKind::CallArg(arg) => {
            below(&arg.expression);
            (
                node::ARGUMENT,
                arg.name.map_or(0, |name| number(name) + 1),
                0,
                0,
            )
        }
        _ => unreachable!("an expression"),
    };
    nodes.push(Node {
        kind,
        name,
        op,
        size: (nodes.len() + 1 - start) as u32,
        span: span(ast.span),
        number: value,
    });
}
