//! The records of an area.

use treefile::{Node, Span, Stmt};

/// A flattened statement, its trees in the area's nodes.
#[derive(Clone, Debug, PartialEq, Eq)]
pub struct AreaStmt {
    pub stmt: Stmt,
    pub fate: u32,
    pub variable: u32,
}

/// A variable's record.
#[derive(Clone, Debug, PartialEq, Eq)]
pub struct AreaVariable {
    /// Name plus 1, or 0.
    pub name: u32,
    pub state: bool,
    /// Time index plus 1, or 0.
    pub time_index: u32,
    pub first: u32,
    pub count: u32,
    /// Held statement plus 1, or 0.
    pub held: u32,
    pub conditions: u32,
    pub time_dependent: bool,
    pub bounds: [u64; 2],
}

/// An error's record.
#[derive(Clone, Copy, Debug, PartialEq, Eq)]
pub struct AreaError {
    pub kind: u32,
    pub span: Span,
    /// Name plus 1, or 0.
    pub name: u32,
}

/// What an area holds.
#[derive(Clone, Debug, PartialEq, Eq)]
pub struct Area {
    pub instances: u32,
    pub time: [u64; 2],
    pub nodes: Vec<Node>,
    pub stmts: Vec<AreaStmt>,
    pub variables: Vec<AreaVariable>,
    pub dependents: Vec<u32>,
    /// All of them, listed or not; of an area that was read those that are listed.
    pub errors: Vec<AreaError>,
}
