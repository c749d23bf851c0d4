//! From models to the text form.

use super::tokens::{begins_name, in_name};
use crate::source::{Arg, Domain, Expr, ExprKind, Model, Source, Stmt, StmtKind, Unknown};

/// The NaN that is written `nan`.
pub(super) const PLAIN_NAN: u64 = 0x7FF8_0000_0000_0000;

/// The text of these models. Read back, it gives the same models but for the spans.
pub fn print(source: &Source) -> String {
    source.models.iter().map(model).collect()
}

fn join<T>(items: &[T], one: fn(&T) -> String) -> String {
    items.iter().map(one).collect::<Vec<_>>().join(", ")
}

fn model(m: &Model) -> String {
    let unknowns = join(&m.unknowns, unknown);
    let stmts: String = m
        .stmts
        .iter()
        .map(|s| format!("    {};\n", stmt(s)))
        .collect();
    format!("model {}({unknowns}) {{\n{stmts}}}\n", name(&m.name))
}

/// A name as it stands where it is plain, else in quotes.
pub fn name(bytes: &[u8]) -> String {
    let plain = bytes.first().is_some_and(|b| begins_name(*b));
    if plain && bytes.iter().all(|b| in_name(*b)) {
        return String::from_utf8_lossy(bytes).into_owned();
    }
    quoted(bytes)
}

fn quoted(bytes: &[u8]) -> String {
    let inside: String = bytes.iter().map(|b| quoted_byte(*b)).collect();
    format!("\"{inside}\"")
}

fn quoted_byte(byte: u8) -> String {
    let shown = byte.is_ascii_graphic() || byte == b' ';
    if shown && byte != b'"' && byte != b'\\' {
        char::from(byte).to_string()
    } else {
        format!("\\x{byte:02x}")
    }
}

fn unknown(u: &Unknown) -> String {
    let mut text = name(&u.name);
    if !u.dependents.is_empty() {
        text += &format!("({})", join(&u.dependents, |d| name(d)));
    }
    match &u.domain {
        Domain::None => {}
        Domain::Range(lower, upper) => {
            text += &format!(" -> ({}, {})", bound(*lower), bound(*upper));
        }
        Domain::Named(domain) => text += &format!(" -> {}", name(domain)),
    }
    text
}

fn bound(bits: u64) -> String {
    let number = f64::from_bits(bits);
    if bits == PLAIN_NAN {
        "nan".into()
    } else if number.is_nan() {
        by_bits(bits)
    } else {
        decimal(number)
    }
}

fn by_bits(bits: u64) -> String {
    format!("0x{bits:016x}")
}

/// The shortest decimal that reads back as the same number; infinities are `inf` and `-inf`.
fn decimal(number: f64) -> String {
    let text = format!("{number:?}");
    text.strip_suffix(".0").unwrap_or(&text).to_string()
}

/// A statement, without the `;` behind it.
pub fn stmt(s: &Stmt) -> String {
    match &s.kind {
        StmtKind::Equation(left, right) => format!("{} = {}", left_side(left), expr(right)),
        StmtKind::Rate(rated, right) => format!("dot({}) = {}", name(rated), expr(right)),
        StmtKind::Submodel(call) => expr(call),
    }
}

/// A left side; a call of a function named `dot` is quoted, lest it be read as a rate equation.
fn left_side(left: &Expr) -> String {
    match &left.kind {
        ExprKind::Call(called, args) if called == b"dot" => {
            format!("{}({})", quoted(called), join(args, arg))
        }
        _ => expr(left),
    }
}

fn arg(a: &Arg) -> String {
    match &a.keyword {
        Some(keyword) => format!("{} = {}", name(keyword), expr(&a.value)),
        None => expr(&a.value),
    }
}

fn expr(e: &Expr) -> String {
    match &e.kind {
        ExprKind::Name(bytes) => name(bytes),
        ExprKind::Number(bits) => number(*bits),
        ExprKind::Binary(op, left, right) => {
            let own = precedence(e);
            let left = within(left, own);
            let right = within(right, own + 1);
            format!("{left} {} {right}", char::from(*op))
        }
        ExprKind::Unary(op, child) => format!("{}{}", char::from(*op), within(child, 3)),
        ExprKind::Call(called, args) => format!("{}({})", name(called), join(args, arg)),
    }
}

/// An expression, in parentheses if its precedence is under the least allowed.
fn within(e: &Expr, least: u8) -> String {
    if precedence(e) < least {
        format!("({})", expr(e))
    } else {
        expr(e)
    }
}

fn precedence(e: &Expr) -> u8 {
    match &e.kind {
        ExprKind::Binary(b'+' | b'-', ..) => 1,
        ExprKind::Binary(..) => 2,
        _ => 3,
    }
}

/// A number node: decimal where it has no sign and is finite, else by its bits.
fn number(bits: u64) -> String {
    let number = f64::from_bits(bits);
    if number.is_finite() && number.is_sign_positive() {
        decimal(number)
    } else {
        by_bits(bits)
    }
}
