//! An area cut into records and fields by the header's lengths, counts and places alone.

use crate::sources::Header;

/// The header and the records, each with its fields, as the header names them.
const FIELDS: [(&str, &[&str]); 5] = [
    (
        "HEADER",
        &[
            "NODES",
            "STATEMENTS",
            "VARIABLES",
            "DEPENDENTS",
            "ERRORS",
            "INSTANCES",
            "TIME_LOWER",
            "TIME_UPPER",
        ],
    ),
    (
        "NODE",
        &["KIND", "NAME", "OP_OR_COUNT", "SIZE", "SPAN", "NUMBER"],
    ),
    (
        "STATEMENT",
        &["KIND", "NAME", "LEFT", "RIGHT", "SPAN", "FATE", "VARIABLE"],
    ),
    (
        "VARIABLE",
        &[
            "NAME",
            "STATE",
            "TIME_INDEX",
            "FIRST_DEPENDENT",
            "DEPENDENT_COUNT",
            "HELD",
            "INITIAL_CONDITIONS",
            "TIME_DEPENDENT",
            "LOWER",
            "UPPER",
        ],
    ),
    ("ERROR", &["KIND", "SPAN", "NAME"]),
];
/// The fields of two words: a float, low first, or a span, start first.
const LONG: [&str; 6] = [
    "SPAN",
    "NUMBER",
    "LOWER",
    "UPPER",
    "TIME_LOWER",
    "TIME_UPPER",
];
/// The sections in order.
const SECTIONS: [&str; 5] = ["NODE", "STATEMENT", "VARIABLE", "DEPENDENT", "ERROR"];

/// The words of an area's records, the header's first.
pub struct Area<'h> {
    header: &'h Header,
    records: Vec<(&'static str, Vec<Vec<u32>>)>,
}

impl<'h> Area<'h> {
    pub fn new(header: &'h Header, bytes: &[u8]) -> Area<'h> {
        let word = |bytes: &[u8]| u32::from_le_bytes(bytes.try_into().expect("whole words"));
        let mut words = bytes.chunks(4).map(word);
        let mut take = |name: &str| -> Vec<u32> {
            let length = header.place(&format!("{name}_WORDS"));
            words.by_ref().take(length).collect()
        };
        let lead = take("HEADER");
        let count = |name: &str| {
            let count = lead[header.place(&format!("HEADER_{name}S"))] as usize;
            assert!(count <= bytes.len() / 4, "the count of each {name}");
            count
        };
        let section = |name| (name, (0..count(name)).map(|_| take(name)).collect());
        let mut records: Vec<_> = SECTIONS.into_iter().map(section).collect();
        records.push(("HEADER", vec![lead]));
        assert_eq!(words.next(), None, "words behind the sections");
        Area { header, records }
    }

    fn of(&self, section: &str) -> &[Vec<u32>] {
        let found = self.records.iter().find(|(name, _)| *name == section);
        &found.expect("a section").1
    }

    /// How many records a section has.
    pub fn count(&self, section: &str) -> usize {
        self.of(section).len()
    }

    /// The fields of a record, each read at the place that the header names.
    pub fn fields(&self, section: &str, i: usize) -> Vec<u64> {
        let words = &self.of(section)[i];
        let found = FIELDS.iter().find(|(name, _)| *name == section);
        let fields = found.expect("a section with fields").1.iter();
        let value = |field: &&str| {
            let at = self.header.place(&format!("{section}_{field}"));
            let high = if LONG.contains(field) {
                words[at + 1]
            } else {
                0
            };
            u64::from(words[at]) | u64::from(high) << 32
        };
        fields.map(value).collect()
    }

    /// No two words of a record are equal in all records of its kind, so that one read for another shows.
    pub fn words_differ(&self) {
        for (section, records) in &self.records {
            for one in 0..records[0].len() {
                for other in 0..one {
                    let differ = records.iter().any(|words| words[one] != words[other]);
                    assert!(differ, "words {other} and {one} of every {section}");
                }
            }
        }
    }
}
