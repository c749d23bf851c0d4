//! The typed records, field by field in the header's order and with its numbers.

use crate::sources::Header;
use builder::{Answer, Bounds, Equation, Error, Fate, Node, NodeKind, Span, Statement, Variable};

/// The fields of every record of a section.
pub fn fields(header: &Header, answer: &Answer, section: &str) -> Vec<Vec<u64>> {
    match section {
        "HEADER" => vec![lead(answer)],
        "NODE" => answer.nodes.iter().map(|n| node(header, n)).collect(),
        "STATEMENT" => {
            let statements = answer.statements.iter();
            statements.map(|s| statement(header, s)).collect()
        }
        "VARIABLE" => answer.variables.iter().map(variable).collect(),
        _ => answer.errors.iter().map(|e| error(header, e)).collect(),
    }
}

/// A span's two words.
pub fn span(start: u64, end: u64) -> u64 {
    start | end << 32
}

fn span_of(header: &Header, typed: Option<Span>) -> u64 {
    let missing = header.number("MISSING");
    typed.map_or(span(missing, missing), |s| {
        span(s.start.into(), s.end.into())
    })
}

/// A number that is kept plus 1.
fn plus_1(number: Option<u32>) -> u64 {
    number.map_or(0, |number| u64::from(number) + 1)
}

fn bits(bounds: Bounds) -> [u64; 2] {
    [bounds.lower.to_bits(), bounds.upper.to_bits()]
}

fn lead(answer: &Answer) -> Vec<u64> {
    let mut fields = vec![
        answer.nodes.len() as u64,
        answer.statements.len() as u64,
        answer.variables.len() as u64,
        answer.dependents.len() as u64,
        answer.error_count.into(),
        answer.instances.into(),
    ];
    fields.extend(bits(answer.time));
    fields
}

fn node(header: &Header, node: &Node) -> Vec<u64> {
    let (kind, name, op, number) = match node.kind {
        NodeKind::Name(name) => ("NAME", name.into(), 0, 0),
        NodeKind::Number(number) => ("NUMBER_NODE", 0, 0, number),
        NodeKind::Binary(op) => ("BINARY", 0, op.into(), 0),
        NodeKind::Unary(op) => ("UNARY", 0, op.into(), 0),
        NodeKind::Call { name, arguments } => ("CALL", name.into(), arguments.into(), 0),
        NodeKind::Argument(keyword) => ("ARGUMENT", plus_1(keyword), 0, 0),
    };
    let (kind, size) = (header.number(kind), node.size.into());
    vec![kind, name, op, size, span_of(header, node.span), number]
}

fn statement(header: &Header, statement: &Statement) -> Vec<u64> {
    let (kind, name, left, right) = match statement.equation {
        Equation::Plain { left, right } => ("EQUATION", 0, left, right),
        Equation::Rate { name, right } => ("RATE_EQUATION", name, 0, right),
    };
    let (fate, variable) = match statement.fate {
        Fate::InitialCondition(v) => ("FATE_INITIAL_CONDITION", v),
        Fate::Held(v) => ("FATE_HELD", v),
        Fate::Replaced(v) => ("FATE_REPLACED", v),
        Fate::LeftOver => ("FATE_LEFT_OVER", 0),
    };
    vec![
        header.number(kind),
        name.into(),
        left.into(),
        right.into(),
        span_of(header, statement.span),
        header.number(fate),
        variable.into(),
    ]
}

fn variable(v: &Variable) -> Vec<u64> {
    let mut fields = vec![
        plus_1(v.name),
        v.is_state.into(),
        plus_1(v.time_index),
        v.first_dependent.into(),
        v.dependents.into(),
        plus_1(v.held),
        v.initial_conditions.into(),
        v.is_time_dependent.into(),
    ];
    fields.extend(bits(v.bounds));
    fields
}

fn error(header: &Header, error: &Error) -> Vec<u64> {
    let span = span_of(header, error.span);
    vec![error.kind.number().into(), span, plus_1(error.name)]
}
