//! Models as plain trees: what the text form is read into, what generators make, and what is assembled into a file.

/// A place in the source text, `None` where it is missing.
pub type Place = Option<(u32, u32)>;

/// An expression.
#[derive(Clone, Debug, PartialEq)]
pub struct Expr {
    pub kind: ExprKind,
    pub span: Place,
}

/// What an expression is.
#[derive(Clone, Debug, PartialEq)]
pub enum ExprKind {
    Name(Vec<u8>),
    /// The 64 bits of a number.
    Number(u64),
    Binary(u8, Box<Expr>, Box<Expr>),
    Unary(u8, Box<Expr>),
    Call(Vec<u8>, Vec<Arg>),
}

/// An argument of a call, with its keyword if it has one.
#[derive(Clone, Debug, PartialEq)]
pub struct Arg {
    pub keyword: Option<Vec<u8>>,
    pub value: Expr,
    pub span: Place,
}

/// The domain of an unknown.
#[derive(Clone, Debug, PartialEq)]
pub enum Domain {
    None,
    /// The 64 bits of the two bounds.
    Range(u64, u64),
    Named(Vec<u8>),
}

/// A declared unknown.
#[derive(Clone, Debug, PartialEq)]
pub struct Unknown {
    pub name: Vec<u8>,
    pub dependents: Vec<Vec<u8>>,
    pub domain: Domain,
    pub span: Place,
}

/// What a statement is.
#[derive(Clone, Debug, PartialEq)]
pub enum StmtKind {
    Equation(Expr, Expr),
    Rate(Vec<u8>, Expr),
    /// A call by the model's name.
    Submodel(Expr),
}

/// A statement.
#[derive(Clone, Debug, PartialEq)]
pub struct Stmt {
    pub kind: StmtKind,
    pub span: Place,
}

/// A model.
#[derive(Clone, Debug, PartialEq)]
pub struct Model {
    pub name: Vec<u8>,
    pub unknowns: Vec<Unknown>,
    pub stmts: Vec<Stmt>,
    pub span: Place,
}

/// The models of a file, in order.
#[derive(Clone, Debug, Default, PartialEq)]
pub struct Source {
    pub models: Vec<Model>,
}

mod assemble;
mod of_file;
#[cfg(test)]
mod tests;
