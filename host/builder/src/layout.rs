//! The answer area's lengths and mosts. Words are 32 bits, little-endian; sections stand one behind the other: header,
//! nodes, statements, variables, dependents, errors.

/// The header: nodes, statements, variables, dependents, errors, instances, time's lower and upper bound (two words each).
pub const HEADER_WORDS: usize = 10;
/// Kind, name, operator or count, size, span start, span end, number (two words).
pub const NODE_WORDS: usize = 8;
/// Kind, name, left, right, span start, span end, fate, variable.
pub const STATEMENT_WORDS: usize = 8;
/// Name plus 1, state, time index plus 1, first dependent, count, held statement plus 1, initial conditions,
/// time-dependent, lower (two words), upper (two words).
pub const VARIABLE_WORDS: usize = 12;
/// A variable number.
pub const DEPENDENT_WORDS: usize = 1;
/// Kind, span start, span end, name plus 1.
pub const ERROR_WORDS: usize = 4;

/// The most of each section.
pub const MOST_NODES: usize = 1024;
pub const MOST_STATEMENTS: usize = 256;
pub const MOST_VARIABLES: usize = 129;
pub const MOST_DEPENDENTS: usize = 1024;
/// All errors are counted, so many are listed.
pub const MOST_LISTED_ERRORS: usize = 256;
pub const MOST_INSTANCES: usize = 1024;
/// Names are below this.
pub const MOST_NAMES: usize = 256;
/// The longest answer.
pub const MOST_BYTES: usize = 55_384;

/// Both words of a missing span.
pub const MISSING: u32 = u32::MAX;
