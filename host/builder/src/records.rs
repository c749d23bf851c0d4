//! The records of an answer. Nodes, statements, variables and names go by their numbers, from 0; a name's text stands in
//! the tree file.

/// A place in a model's source text: from its first byte to past its last.
#[derive(Clone, Copy, Debug, PartialEq, Eq, Hash)]
pub struct Span {
    pub start: u32,
    pub end: u32,
}

/// A pair of bounds, with the bits that the file gave them.
#[derive(Clone, Copy, Debug)]
pub struct Bounds {
    pub lower: f64,
    pub upper: f64,
}

/// A node of an expression. Its children stand directly before it, in order.
#[derive(Clone, Copy, Debug, PartialEq, Eq)]
pub struct Node {
    pub kind: NodeKind,
    /// The node and all below it.
    pub size: u32,
    pub span: Option<Span>,
}

/// What a node is.
#[derive(Clone, Copy, Debug, PartialEq, Eq)]
pub enum NodeKind {
    Name(u32),
    /// The 64 bits of a number.
    Number(u64),
    /// `+ - * /`
    Binary(u8),
    /// `+ -`
    Unary(u8),
    Call {
        name: u32,
        arguments: u32,
    },
    /// With its keyword, if it has one.
    Argument(Option<u32>),
}

/// A flattened statement.
#[derive(Clone, Copy, Debug, PartialEq, Eq)]
pub struct Statement {
    pub equation: Equation,
    pub span: Option<Span>,
    pub fate: Fate,
}

/// What a flattened statement says. Sides are the numbers of their trees' top nodes.
#[derive(Clone, Copy, Debug, PartialEq, Eq)]
pub enum Equation {
    Plain { left: u32, right: u32 },
    Rate { name: u32, right: u32 },
}

/// What became of a statement, with its variable.
#[derive(Clone, Copy, Debug, PartialEq, Eq)]
pub enum Fate {
    InitialCondition(u32),
    Held(u32),
    Replaced(u32),
    LeftOver,
}

impl Fate {
    /// The number in the area.
    pub fn number(self) -> u32 {
        match self {
            Fate::InitialCondition(_) => 1,
            Fate::Held(_) => 2,
            Fate::Replaced(_) => 3,
            Fate::LeftOver => 4,
        }
    }

    /// The variable concerned.
    pub fn variable(self) -> Option<u32> {
        match self {
            Fate::InitialCondition(v) | Fate::Held(v) | Fate::Replaced(v) => Some(v),
            Fate::LeftOver => None,
        }
    }

    /// In words.
    pub fn words(self) -> &'static str {
        match self {
            Fate::InitialCondition(_) => "initial condition",
            Fate::Held(_) => "held",
            Fate::Replaced(_) => "replaced",
            Fate::LeftOver => "left over",
        }
    }
}

/// A variable of the root model. Variable 0 is time.
#[derive(Clone, Copy, Debug)]
pub struct Variable {
    /// None for time where the file does not name it.
    pub name: Option<u32>,
    pub is_state: bool,
    /// The place of time among its dependents.
    pub time_index: Option<u32>,
    /// Its run of the answer's dependents.
    pub first_dependent: u32,
    pub dependents: u32,
    /// The statement that it holds.
    pub held: Option<u32>,
    pub initial_conditions: u32,
    pub is_time_dependent: bool,
    pub bounds: Bounds,
}

/// A listed error.
#[derive(Clone, Copy, Debug, PartialEq, Eq)]
pub struct Error {
    pub kind: crate::ErrorKind,
    pub span: Option<Span>,
    pub name: Option<u32>,
}
