//! The records of a tree file, section by section, and their words.

/// Both words of a missing span.
pub const MISSING: u32 = u32::MAX;
/// The form in the trailer's last word.
pub const FORM: u32 = 1;
/// The trailer's length in bytes.
pub const TRAILER: usize = 32;

/// The most of each section: text (in bytes), names, nodes, dependents, unknowns, statements, models.
pub const MOSTS: [u32; 7] = [4096, 256, 1024, 1024, 128, 256, 32];
/// The bytes of one record of each section, in the same order.
pub const RECORD_BYTES: [usize; 7] = [1, 8, 32, 4, 40, 24, 28];

/// Kinds of nodes.
pub mod node {
    pub const NAME: u32 = 1;
    pub const NUMBER: u32 = 2;
    pub const BINARY: u32 = 3;
    pub const UNARY: u32 = 4;
    pub const CALL: u32 = 5;
    pub const ARGUMENT: u32 = 6;
}

/// Kinds of statements.
pub mod stmt {
    pub const EQUATION: u32 = 1;
    pub const RATE: u32 = 2;
    pub const SUBMODEL: u32 = 3;
}

/// Kinds of domains.
pub mod domain {
    pub const NONE: u32 = 0;
    pub const RANGE: u32 = 1;
    pub const NAMED: u32 = 2;
}

/// A place in the source text of a model: from its first byte to past its last.
#[derive(Clone, Copy, Debug, PartialEq, Eq, Hash)]
pub struct Span {
    pub start: u32,
    pub end: u32,
}

impl Span {
    /// The span of what has no place.
    pub const MISSING: Span = Span {
        start: MISSING,
        end: MISSING,
    };

    /// Whether both words say that there is no place.
    pub fn is_missing(self) -> bool {
        self == Span::MISSING
    }
}

/// Where a name lies in the text.
#[derive(Clone, Copy, Debug, PartialEq, Eq)]
pub struct Name {
    pub start: u32,
    pub len: u32,
}

/// A node of an expression; its children stand directly before it.
#[derive(Clone, Copy, Debug, PartialEq, Eq)]
pub struct Node {
    pub kind: u32,
    /// A name number; in an argument a name number plus 1, or 0.
    pub name: u32,
    /// The operator's byte, or a call's count of arguments.
    pub op: u32,
    pub size: u32,
    pub span: Span,
    /// The 64 bits of a number.
    pub number: u64,
}

/// A declared unknown; names and dependents are name numbers.
#[derive(Clone, Copy, Debug, PartialEq, Eq)]
pub struct Unknown {
    pub name: u32,
    pub first: u32,
    pub count: u32,
    pub domain: u32,
    pub lower: u64,
    pub upper: u64,
    pub span: Span,
}

/// A statement; `left` and `right` are the top nodes of its trees.
#[derive(Clone, Copy, Debug, PartialEq, Eq)]
pub struct Stmt {
    pub kind: u32,
    pub name: u32,
    pub left: u32,
    pub right: u32,
    pub span: Span,
}

/// A model with its runs of unknowns and statements.
#[derive(Clone, Copy, Debug, PartialEq, Eq)]
pub struct Model {
    pub name: u32,
    pub first_unknown: u32,
    pub unknowns: u32,
    pub first_stmt: u32,
    pub stmts: u32,
    pub span: Span,
}

/// A tree file's sections, without their counts.
#[derive(Clone, Debug, Default, PartialEq, Eq)]
pub struct File {
    pub text: Vec<u8>,
    pub names: Vec<Name>,
    pub nodes: Vec<Node>,
    pub dependents: Vec<u32>,
    pub unknowns: Vec<Unknown>,
    pub stmts: Vec<Stmt>,
    pub models: Vec<Model>,
}
