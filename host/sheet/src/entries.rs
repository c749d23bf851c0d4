//! The entries of a sheet: statements, variables and errors in words.

use crate::equations::flattened;
use crate::place::place;
use crate::sheet::Case;
use crate::sizes::grouped;
use builder::{Answer, Bounds, Equation, Error, Fate, Span};
use treefile::source::Source;
use treefile::text::{print_name, print_stmt};

/// A variable's name; `t` for time where the file does not name it.
pub(crate) fn variable_name(case: &Case, answer: &Answer, variable: u32) -> String {
    match answer.variables[variable as usize].name {
        Some(name) => print_name(case.file.name(name)),
        None => "t".to_string(),
    }
}

/// Statement `number`: its number from 1, fate, variable, place, and its text; below it the flattened text where
/// replacements changed it, and what replaced it.
pub(crate) fn statement(case: &Case, answer: &Answer, origins: &[String], number: usize) -> String {
    let statement = &answer.statements[number];
    let fate = match statement.fate {
        Fate::Replaced(_) => "REPLACED",
        Fate::LeftOver => "LEFT OVER",
        fate => fate.words(),
    };
    let variable = statement.fate.variable();
    let variable = variable.map_or("-".into(), |v| variable_name(case, answer, v));
    let place = place(case.source, statement.span);
    let flat = flattened(case.file, answer, number);
    let origin = origins.get(number).unwrap_or(&flat);
    let written = written(case, statement.span).unwrap_or_else(|| origin.clone());
    let mut entry = format!(
        "{:>5}  {fate:<17}  {variable:<20} {place:<20}  {written}\n",
        number + 1
    );
    if flat != *origin {
        entry += &below("flattened:", &flat);
    }
    if let Some(by) = replaced_by(answer, number) {
        entry += &below("replaced by:", &format!("statement {}", by + 1));
    }
    entry
}

/// A line below a statement's text.
fn below(label: &str, text: &str) -> String {
    format!("{label:>67}  {text}\n")
}

/// The source's own text of a statement.
fn written(case: &Case, span: Option<Span>) -> Option<String> {
    case.source?.at(span?)
}

/// The statement that a state holds in place of this one.
pub(crate) fn replaced_by(answer: &Answer, number: usize) -> Option<u32> {
    match answer.statements[number].fate {
        Fate::Replaced(v) => answer.variables[v as usize].held,
        _ => None,
    }
}

/// The statements of the file before replacements, in the order of the flattened ones, as text.
pub(crate) fn origins(case: &Case, equations: &[crate::Origin]) -> Vec<String> {
    let source = Source::of_file(case.file);
    let text = |origin: &crate::Origin| {
        let first = case.file.models[origin.model].first_stmt as usize;
        print_stmt(&source.models[origin.model].stmts[origin.stmt - first])
    };
    equations.iter().map(text).collect()
}

/// Variable `number`: what it is, its bounds, and what it holds.
pub(crate) fn variable(case: &Case, answer: &Answer, number: u32) -> String {
    let v = &answer.variables[number as usize];
    let name = variable_name(case, answer, number);
    let names: Vec<String> = answer
        .dependents_of(v)
        .iter()
        .map(|d| variable_name(case, answer, *d))
        .collect();
    let what = match (number, v.is_state) {
        (0, false) => "time".to_string(),
        (_, false) => "parameter".to_string(),
        (_, true) => format!("state of {}", names.join(", ")),
    };
    let holds = match v.held {
        Some(s) => format!("holds statement {} ({})", s + 1, kind(answer, s)),
        None => "holds no statement".to_string(),
    };
    let starts: Vec<String> = answer
        .initial_conditions_of(number)
        .iter()
        .map(|s| (s + 1).to_string())
        .collect();
    let starts = match v.initial_conditions {
        0 => "no initial condition".to_string(),
        1 => format!("initial condition: statement {}", starts.join(", ")),
        n => format!("{n} initial conditions: statements {}", starts.join(", ")),
    };
    format!(
        "{:>5}  {name:<20} {what:<16} {:<18} {holds}; {starts}\n",
        number,
        bounds(v.bounds)
    )
}

fn kind(answer: &Answer, statement: u32) -> &'static str {
    match answer.statements[statement as usize].equation {
        Equation::Plain { .. } => "equation",
        Equation::Rate { .. } => "rate equation",
    }
}

/// Bounds, nothing where there are none.
pub(crate) fn bounds(bounds: Bounds) -> String {
    match (bounds.lower, bounds.upper) {
        (f64::NEG_INFINITY, f64::INFINITY) => "unbounded".to_string(),
        (lower, f64::INFINITY) => format!("from {lower}"),
        (lower, upper) => format!("{lower} to {upper}"),
    }
}

/// An error in words, with its place.
pub(crate) fn error(case: &Case, number: usize, error: &Error) -> String {
    let name = error
        .name
        .map_or(String::new(), |n| print_name(case.file.name(n)));
    let words = error.kind.words().replace("NAME", &name);
    let place = place(case.source, error.span);
    let kind = format!("error {}", error.kind.number());
    format!(
        "{:>5}  {kind:<9} {place:<20}  {words}\n",
        grouped(number + 1)
    )
}
