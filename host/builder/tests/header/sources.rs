//! The header's and the definitions' numbers, read from their files.

use std::cell::RefCell;
use std::collections::{BTreeMap, BTreeSet};
use std::fs;

/// What the header defines that is no number.
const MACROS: [&str; 3] = [
    "#define BUILDER_H",
    "#define BUILDER_NUMBER(told) ((uint32_t)(told))",
    "#define BUILDER_USED(told) ((uint32_t)((told) >> 32))",
];
/// What stands before the version, which is the one text that the header defines.
const VERSION: &str = "#define BUILDER_VERSION ";
/// Where the definitions have their numbers; each has one place.
const DEFINITIONS: [&str; 2] = [
    "crates/ast/specs/FileNumbers.antt",
    "crates/definitions/specs/Numbers.antt",
];

/// A file of the repository.
pub fn text(path: &str) -> String {
    let path = format!("{}/../../{path}", env!("CARGO_MANIFEST_DIR"));
    fs::read_to_string(&path).unwrap_or_else(|error| panic!("{path}: {error}"))
}

fn insert(numbers: &mut BTreeMap<String, u64>, name: &str, number: u64) {
    let before = numbers.insert(name.to_string(), number);
    assert_eq!(before, None, "{name} is defined twice");
}

/// The numbers that the header names, without the prefix, and which of them were asked for.
pub struct Header {
    numbers: BTreeMap<String, u64>,
    asked: RefCell<BTreeSet<String>>,
}

impl Header {
    pub fn read() -> Header {
        let mut numbers = BTreeMap::new();
        let text = text("include/builder.h");
        assert!(!text.contains("undef"));
        let defines = text.lines().filter(|line| line.contains("define"));
        let is_number = |line: &&str| !MACROS.contains(line) && !line.starts_with(VERSION);
        for line in defines.filter(is_number) {
            let parts = line.split_whitespace().collect::<Vec<_>>();
            let ["#define", name, number, ..] = parts[..] else {
                panic!("{line}");
            };
            let name = name.strip_prefix("BUILDER_").expect(line);
            let number = number.trim_end_matches('u').parse().expect(line);
            insert(&mut numbers, name, number);
        }
        Header {
            numbers,
            asked: RefCell::default(),
        }
    }

    /// The number of a name.
    pub fn number(&self, name: &str) -> u64 {
        self.asked.borrow_mut().insert(name.to_string());
        let number = self.numbers.get(name);
        *number.unwrap_or_else(|| panic!("the header has no {name}"))
    }

    /// The same as a place or a count.
    pub fn place(&self, name: &str) -> usize {
        self.number(name) as usize
    }

    /// The names that were never asked for.
    pub fn not_asked_for(&self) -> Vec<&str> {
        let asked = self.asked.borrow();
        let names = self.numbers.keys().filter(|name| !asked.contains(*name));
        names.map(String::as_str).collect()
    }
}

/// The version that the header defines.
pub fn version() -> String {
    let header = text("include/builder.h");
    let versions = header.lines().filter_map(|line| line.strip_prefix(VERSION));
    let versions: Vec<&str> = versions.collect();
    assert_eq!(versions.len(), 1, "{versions:?}");
    versions[0].trim_matches('"').to_string()
}

/// The newest version that has a heading in CHANGELOG.md: `## [1.2.3] - DATE`, behind `## [Unreleased]`.
pub fn newest_change() -> String {
    let changes = text("CHANGELOG.md");
    let mut headings = changes.lines().filter_map(|line| {
        let (version, _) = line.strip_prefix("## [")?.split_once(']')?;
        Some(version.to_string())
    });
    assert_eq!(headings.next().as_deref(), Some("Unreleased"));
    headings.next().expect("a version")
}

/// The `name = number` lines of the definitions.
pub struct Definitions(BTreeMap<String, u64>);

impl Definitions {
    pub fn read() -> Definitions {
        let mut numbers = BTreeMap::new();
        for line in DEFINITIONS.map(text).iter().flat_map(|text| text.lines()) {
            if let Some((name, number)) = line.split_once(" = ") {
                insert(&mut numbers, name, number.parse().expect(line));
            }
        }
        Definitions(numbers)
    }

    /// The number of a name.
    pub fn number(&self, name: &str) -> u64 {
        let number = self.0.get(name);
        *number.unwrap_or_else(|| panic!("the definitions have no {name}"))
    }
}
