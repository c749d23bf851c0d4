//! From an area's bytes to its records. Every field is held to the layout, so that an area from a file can be read too.

use crate::answer::Answer;
use crate::layout::{
    DEPENDENT_WORDS, ERROR_WORDS, HEADER_WORDS, MOST_DEPENDENTS, MOST_INSTANCES,
    MOST_LISTED_ERRORS, MOST_NAMES, MOST_NODES, MOST_STATEMENTS, MOST_VARIABLES, NODE_WORDS,
    STATEMENT_WORDS, VARIABLE_WORDS,
};
use crate::records::{Equation, Error, Fate, Node, NodeKind, Statement, Variable};
use crate::words::Words;
use crate::{trees, ErrorKind};
use std::fmt;

/// The first rule of the layout that an area breaks.
#[derive(Clone, Debug, PartialEq, Eq)]
pub struct Broken(pub String);

impl fmt::Display for Broken {
    fn fmt(&self, f: &mut fmt::Formatter) -> fmt::Result {
        write!(f, "the area breaks the layout: {}", self.0)
    }
}

impl std::error::Error for Broken {}

fn require(holds: bool, what: impl fmt::Display) -> Result<(), Broken> {
    holds.then_some(()).ok_or_else(|| Broken(what.to_string()))
}

/// The header's counts.
struct Counts {
    nodes: usize,
    statements: usize,
    variables: usize,
    dependents: usize,
    errors: u32,
    instances: u32,
}

impl Counts {
    fn listed(&self) -> usize {
        (self.errors as usize).min(MOST_LISTED_ERRORS)
    }

    fn bytes(&self) -> usize {
        4 * (HEADER_WORDS
            + NODE_WORDS * self.nodes
            + STATEMENT_WORDS * self.statements
            + VARIABLE_WORDS * self.variables
            + DEPENDENT_WORDS * self.dependents
            + ERROR_WORDS * self.listed())
    }
}

impl Answer {
    /// The answer in an area that keeps its layout; what stands behind the answer is zero. The zeros that a refused build
    /// leaves are an area with nothing in it, so the number comes first.
    pub fn read(area: &[u8]) -> Result<Answer, Broken> {
        require(
            area.len() >= 4 * HEADER_WORDS,
            "it is shorter than a header",
        )?;
        let mut words = Words::new(area);
        let counts = counts(&mut words)?;
        let bytes = counts.bytes();
        require(bytes <= area.len(), "it is shorter than its sections")?;
        let behind = &area[bytes..];
        require(
            behind.iter().all(|b| *b == 0),
            "there are bytes behind the answer",
        )?;
        let answer = Answer {
            instances: counts.instances,
            time: words.bounds(),
            nodes: many("node", counts.nodes, || node(&mut words))?,
            statements: many("statement", counts.statements, || {
                statement(&mut words, &counts)
            })?,
            variables: many("variable", counts.variables, || variable(&mut words))?,
            dependents: (0..counts.dependents).map(|_| words.word()).collect(),
            error_count: counts.errors,
            errors: many("error", counts.listed(), || error(&mut words))?,
            bytes,
        };
        whole(&answer)?;
        Ok(answer)
    }
}

fn counts(words: &mut Words) -> Result<Counts, Broken> {
    let counts = Counts {
        nodes: words.word() as usize,
        statements: words.word() as usize,
        variables: words.word() as usize,
        dependents: words.word() as usize,
        errors: words.word(),
        instances: words.word(),
    };
    let within = counts.nodes <= MOST_NODES
        && counts.statements <= MOST_STATEMENTS
        && counts.variables <= MOST_VARIABLES
        && counts.dependents <= MOST_DEPENDENTS
        && counts.instances as usize <= MOST_INSTANCES;
    require(within, "a count is not within its most")?;
    Ok(counts)
}

/// So many records, the first that breaks a rule named.
fn many<T>(what: &str, count: usize, mut one: impl FnMut() -> Option<T>) -> Result<Vec<T>, Broken> {
    let numbered = |i| one().ok_or_else(|| Broken(format!("{what} {i}")));
    (0..count).map(numbered).collect()
}

/// The rules that look at more than one record.
fn whole(answer: &Answer) -> Result<(), Broken> {
    let nodes = &answer.nodes;
    for i in 0..nodes.len() {
        require(
            trees::node_fits(nodes, i),
            format_args!("children of node {i}"),
        )?;
    }
    require(
        trees::trees_fill(nodes, &answer.statements),
        "the statements' trees do not fill the nodes",
    )?;
    variables_fit(answer)?;
    let known = |d: &u32| (*d as usize) < answer.variables.len();
    require(
        answer.dependents.iter().all(known),
        "a dependent is no variable",
    )
}

fn variables_fit(answer: &Answer) -> Result<(), Broken> {
    let mut dependents = 0;
    for (i, v) in answer.variables.iter().enumerate() {
        let earlier = &answer.variables[..i];
        let fits = v.first_dependent == dependents
            && v.dependents as usize <= answer.dependents.len() - dependents as usize
            && v.held
                .is_none_or(|s| (s as usize) < answer.statements.len())
            && v.initial_conditions as usize <= answer.statements.len()
            && v.time_index.is_none_or(|place| place < v.dependents)
            && (v.name.is_some() || i == 0)
            && earlier.iter().all(|e| e.name != v.name);
        require(fits, format_args!("variable {i}"))?;
        dependents += v.dependents;
    }
    let filled = dependents as usize == answer.dependents.len();
    require(filled, "the variables' runs do not fill the dependents")
}

fn is_name(name: u32) -> bool {
    (name as usize) < MOST_NAMES
}

/// A name number plus 1, or 0.
fn maybe_name(word: u32) -> Option<Option<u32>> {
    let name = word.checked_sub(1);
    name.is_none_or(is_name).then_some(name)
}

fn flag(word: u32) -> Option<bool> {
    match word {
        0 => Some(false),
        1 => Some(true),
        _ => None,
    }
}

fn node(words: &mut Words) -> Option<Node> {
    let [kind, name, op, size] = words.words();
    let span = words.span()?;
    let number = words.long();
    let kind = match (kind, name, op, number) {
        (1, name, 0, 0) if is_name(name) => NodeKind::Name(name),
        (2, 0, 0, number) => NodeKind::Number(number),
        (3, 0, op, 0) if is_one_of(op, b"+-*/") => NodeKind::Binary(op as u8),
        (4, 0, op, 0) if is_one_of(op, b"+-") => NodeKind::Unary(op as u8),
        (5, name, arguments, 0) if is_name(name) => NodeKind::Call { name, arguments },
        (6, name, 0, 0) => NodeKind::Argument(maybe_name(name)?),
        _ => return None,
    };
    Some(Node { kind, size, span })
}

fn is_one_of(op: u32, ops: &[u8]) -> bool {
    ops.iter().any(|byte| u32::from(*byte) == op)
}

fn statement(words: &mut Words, counts: &Counts) -> Option<Statement> {
    let [kind, name, left, right] = words.words();
    let span = words.span()?;
    let [fate, variable] = words.words();
    let equation = match (kind, name, left) {
        (1, 0, left) => Equation::Plain { left, right },
        (2, name, 0) if is_name(name) => Equation::Rate { name, right },
        _ => return None,
    };
    let known = (variable as usize) < counts.variables;
    let fate = match (fate, variable) {
        (1, v) if known => Fate::InitialCondition(v),
        (2, v) if known => Fate::Held(v),
        (3, v) if known => Fate::Replaced(v),
        (4, 0) => Fate::LeftOver,
        _ => return None,
    };
    Some(Statement {
        equation,
        span,
        fate,
    })
}

fn variable(words: &mut Words) -> Option<Variable> {
    let [name, state, time_index, first_dependent] = words.words();
    let [dependents, held, initial_conditions, time_dependent] = words.words();
    Some(Variable {
        name: maybe_name(name)?,
        is_state: flag(state)?,
        time_index: time_index.checked_sub(1),
        first_dependent,
        dependents,
        held: held.checked_sub(1),
        initial_conditions,
        is_time_dependent: flag(time_dependent)?,
        bounds: words.bounds(),
    })
}

fn error(words: &mut Words) -> Option<Error> {
    Some(Error {
        kind: ErrorKind::of_number(words.word())?,
        span: words.span()?,
        name: maybe_name(words.word())?,
    })
}
