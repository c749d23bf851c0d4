//! README.md's list of what has to be believed: every file that the definition of a build and the promise stand on, with
//! its lines.

use std::collections::{BTreeMap, BTreeSet};
use std::fs;
use std::path::Path;

fn place(path: &str) -> String {
    format!("{}/../../{path}", env!("CARGO_MANIFEST_DIR"))
}

fn text(path: &str) -> String {
    let path = place(path);
    fs::read_to_string(&path).unwrap_or_else(|error| panic!("{path}: {error}"))
}

/// Rows `| [..](PATH) | LINES | ..`, by path.
fn listed() -> BTreeMap<String, usize> {
    let readme = text("README.md");
    let rows = readme.lines().filter_map(|line| {
        let (path, rest) = line
            .trim()
            .strip_prefix("| [")?
            .split_once("](")?
            .1
            .split_once(") | ")?;
        Some((path.to_string(), rest.split_once(" | ")?.0.parse().ok()?))
    });
    rows.collect()
}

/// The file of `Rattle.CRATE.specs.MODULE`, if a `use` line names one that is written by hand.
fn used(line: &str) -> Option<String> {
    let name = line
        .trim_start_matches("pub ")
        .strip_prefix("use Rattle.")?;
    let (library, module) = name.split_once(".specs.")?;
    let module = module.split(['.', ' ']).next()?;
    let path = format!("crates/{library}/specs/{module}.antt");
    Path::new(&place(&path)).exists().then_some(path)
}

/// A file and all that it uses, directly or through others.
fn below(path: &str, found: &mut BTreeSet<String>) {
    if found.insert(path.to_string()) {
        text(path)
            .lines()
            .filter_map(used)
            .for_each(|next| below(&next, found));
    }
}

#[test]
fn lines_are_counted() {
    for (path, lines) in listed() {
        assert_eq!(text(&path).lines().count(), lines, "{path}");
    }
}

#[test]
fn nothing_that_is_stood_on_is_left_out() {
    let mut found = BTreeSet::new();
    for start in [
        "definitions/specs/Build",
        "definitions/specs/Promise",
        "definitions/specs/Area",
        "report/specs/Lines",
    ] {
        below(&format!("crates/{start}.antt"), &mut found);
    }
    assert!(found.contains("crates/functions/specs/Rules.antt"));
    let listed = listed();
    for path in found {
        assert!(listed.contains_key(&path), "{path} is not in README.md");
    }
}
