//! Sections, lengths and mosts. Words are 32 bits, little-endian; the sections stand behind the header without gaps.

/// The header's words: the five sections' counts, instances, time's lower and upper bound (two words each).
pub const HEADER_WORDS: usize = 10;
/// The words of one node, statement, variable, dependent and error.
pub const RECORD_WORDS: [usize; 5] = [8, 8, 12, 1, 4];
/// The most of each section. All errors are counted, so many are listed.
pub const MOSTS: [usize; 5] = [1024, 256, 129, 1024, MOST_LISTED];
/// The most errors that are listed.
pub const MOST_LISTED: usize = 256;
/// The most instances.
pub const MOST_INSTANCES: usize = 1024;
/// The bytes of the largest answer.
pub const MOST_BYTES: usize = 55_384;

/// A section behind the header. Its number is the place of its count in the header, too.
#[derive(Clone, Copy, Debug, PartialEq, Eq)]
pub enum Section {
    Nodes,
    Stmts,
    Variables,
    Dependents,
    Errors,
}

impl Section {
    /// All of them in order.
    pub const ALL: [Section; 5] = [
        Section::Nodes,
        Section::Stmts,
        Section::Variables,
        Section::Dependents,
        Section::Errors,
    ];

    /// The words of one record.
    pub fn record_words(self) -> usize {
        RECORD_WORDS[self as usize]
    }

    /// One record of it, in words.
    pub fn record(self) -> &'static str {
        ["node", "statement", "variable", "dependent", "error"][self as usize]
    }
}

/// The fates of a statement.
pub mod fate {
    pub const CONDITION: u32 = 1;
    pub const HELD: u32 = 2;
    pub const REPLACED: u32 = 3;
    pub const LEFT_OVER: u32 = 4;
}
