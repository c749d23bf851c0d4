//! What a run of the original builder is reported as: plain data that both of its variants share.

mod agree;
mod info;

pub use agree::{agree, Maps};
pub use info::{Boundary, Cell, Ending, Info, Message};

use treefile::{Node, Span};

/// A record of the file, marked in place of a span to learn where an error comes from.
#[derive(Clone, Copy, Debug, PartialEq, Eq)]
pub enum Origin {
    Node(usize),
    Unknown(usize),
    Stmt(usize),
    Model(usize),
}

impl Origin {
    /// The span that stands for this record.
    pub fn to_span(self) -> Span {
        let (index, section) = match self {
            Origin::Node(i) => (i, 0),
            Origin::Unknown(i) => (i, 1),
            Origin::Stmt(i) => (i, 2),
            Origin::Model(i) => (i, 3),
        };
        Span {
            start: index as u32,
            end: section,
        }
    }

    /// The record that a span stands for.
    pub fn of_span(span: Span) -> Option<Origin> {
        let index = span.start as usize;
        match span.end {
            0 => Some(Origin::Node(index)),
            1 => Some(Origin::Unknown(index)),
            2 => Some(Origin::Stmt(index)),
            3 => Some(Origin::Model(index)),
            _ => None,
        }
    }
}

/// Which spans the builder is given.
#[derive(Clone, Copy, Debug, PartialEq, Eq)]
pub enum Spans {
    /// Those of the file.
    Own,
    /// Those of [`Origin::to_span`], one for each record.
    Origins,
}

/// A flattened statement: the fields of the file's statement, with its trees as runs of nodes.
#[derive(Clone, Debug, PartialEq, Eq)]
pub struct Flat {
    pub kind: u32,
    pub name: u32,
    /// Empty in a rate equation.
    pub left: Vec<Node>,
    pub right: Vec<Node>,
    pub span: Span,
}

/// An initial condition as its variable keeps it.
#[derive(Clone, Debug, PartialEq, Eq)]
pub struct Condition {
    /// The bits of the number in time's place.
    pub location: u64,
    pub right: Vec<Node>,
}

/// A variable after a build.
#[derive(Clone, Debug, PartialEq, Eq)]
pub struct Variable {
    /// The name's number; `None` for t where no name is t.
    pub name: Option<u32>,
    /// The kept dependents, as numbers of variables.
    pub dependents: Vec<usize>,
    pub time_index: Option<usize>,
    /// The bits of the lower and the upper bound.
    pub bounds: [u64; 2],
    pub state: bool,
    /// Where it was asked for.
    pub time_dependent: Option<bool>,
    pub equation: Option<Flat>,
    pub conditions: Vec<Condition>,
}

/// An error, taken apart from its message.
#[derive(Clone, Copy, Debug, PartialEq, Eq, PartialOrd, Ord)]
pub struct Error {
    /// 1 to 17, or 0 for a message that no builder of document 01 gives.
    pub kind: u32,
    /// Start and end of the span.
    pub span: (u32, u32),
    /// The name's number, where the message holds a name.
    pub name: Option<u32>,
}

/// The end of a build: what can be seen without watching its steps.
#[derive(Clone, Debug, PartialEq, Eq)]
pub struct Built {
    /// In the map's order.
    pub variables: Vec<Variable>,
    /// The bits of time's bounds.
    pub time: [u64; 2],
    pub errors: Vec<Error>,
}

/// What became of a flattened statement before the rest is paired.
#[derive(Clone, Copy, Debug, PartialEq, Eq)]
pub enum Taken {
    /// An initial condition of this variable.
    Condition(usize),
    /// A rate equation that this variable took, for the time being.
    Rate(usize),
    Left,
}

/// A build and its steps. Variables and statements are numbers into `built.variables` and `statements`.
#[derive(Clone, Debug, PartialEq, Eq)]
pub struct Report {
    pub built: Built,
    pub statements: Vec<Flat>,
    /// One for each statement.
    pub taken: Vec<Taken>,
    /// The statement that each variable holds in the end.
    pub held: Vec<Option<usize>>,
    /// How often a model was set up; only the ordered map can count this.
    pub instances: Option<u64>,
}

/// The places where the builder panics.
#[derive(Clone, Debug, PartialEq, Eq)]
pub enum Panic {
    /// In `set_dependents`: an unknown lists itself.
    SelfListed,
    /// In `find_replacements`: a positional argument whose number is not below the submodel's count of unknowns.
    BeyondUnknowns,
    /// In `allocate_stmt`: a left side too short for the time index.
    BeyondArguments,
    /// Anywhere else, with message and place.
    Other(String),
}

/// How a run ended.
#[derive(Clone, Debug, PartialEq, Eq)]
pub enum Outcome {
    Built(Report),
    /// No model has the root name.
    NotFound,
    Panicked(Panic),
}

/// A state whose time-dependence is decided beforehand, because the walk of the original would not end.
#[derive(Clone, Copy, Debug, PartialEq, Eq)]
pub struct Decided {
    pub name: u32,
    pub time_dependent: bool,
}

/// How the original is to be run.
#[derive(Clone, Copy, Debug)]
pub struct Request<'r> {
    pub spans: Spans,
    pub decided: &'r [Decided],
    /// The variables, by name, whose time-dependence the original is asked for in the end.
    pub walks: &'r [Option<u32>],
}

impl Request<'static> {
    /// A run as it is, with the file's spans.
    pub const PLAIN: Request<'static> = Request {
        spans: Spans::Own,
        decided: &[],
        walks: &[],
    };
}

/// A step of a bare run, from a tree file to what the original builds of it.
#[derive(Clone, Copy, Debug, PartialEq, Eq)]
pub enum Step {
    /// The file is read and checked.
    Read,
    /// The original's trees are made.
    Made,
    /// `ModelInfo::build` has returned.
    Built,
}
