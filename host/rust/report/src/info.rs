//! Everything that can be read of a `ModelInfo`, as plain data.

use crate::{Error, Flat, Panic};
use treefile::Node;

/// How a call of `ModelInfo::build`, or a run of its steps, ended.
#[derive(Clone, Debug, PartialEq, Eq)]
pub enum Ending {
    Built(Info),
    /// The text that is returned in place of a model.
    NotFound(String),
    Panicked(Panic),
}

/// A `ModelInfo`. Variables are shared there, so each is one cell here and is named by its number among them.
#[derive(Clone, Debug, PartialEq, Eq)]
pub struct Info {
    pub name: String,
    /// `time`, then the unknowns and the definitions as far as they are others, then what else the map holds.
    pub cells: Vec<Cell>,
    pub time: usize,
    pub unknowns: Vec<usize>,
    pub definitions: Vec<usize>,
    /// Keys and cells in the map's order.
    pub variables: Vec<(String, usize)>,
    pub stmts: Vec<Flat>,
    pub errors: Vec<Message>,
}

/// A variable with all of its fields; numbers are those of cells, floats their bits.
#[derive(Clone, Debug, PartialEq, Eq)]
pub struct Cell {
    pub name: String,
    /// The name's number, where it is one of the file.
    pub number: Option<u32>,
    pub time_gradient_name: String,
    pub dim: usize,
    pub bounds: [u64; 2],
    pub equation: Option<Flat>,
    pub expression: Option<Vec<Node>>,
    pub dependents: Vec<usize>,
    pub time_index: Option<usize>,
    pub init_conditions: Vec<Boundary>,
}

/// An initial condition with all of its fields.
#[derive(Clone, Debug, PartialEq, Eq)]
pub struct Boundary {
    pub variable: usize,
    pub location: u64,
    pub equation: Vec<Node>,
    pub is_dirichlet: bool,
}

/// An error with all of its fields, and what its text says.
#[derive(Clone, Debug, PartialEq, Eq, PartialOrd, Ord)]
pub struct Message {
    pub error: Error,
    pub text: String,
    pub secondary_texts: Vec<String>,
    pub secondary_spans: Vec<(u32, u32)>,
}
