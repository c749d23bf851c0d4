//! The example whose errors README.md shows beside its text, and the run of it that `rt ci` makes.

use builder::Answer;
use std::fs;

fn read(path: &str) -> Vec<u8> {
    let path = format!("{}/../../{path}", env!("CARGO_MANIFEST_DIR"));
    fs::read(&path).unwrap_or_else(|error| panic!("{path}: {error}"))
}

#[test]
fn the_stored_run_is_of_the_example() {
    let text = read("examples/misnamed.model");
    let model = treefile::text::parse(std::str::from_utf8(&text).unwrap()).unwrap();
    let area = lines::area_of(&model.assemble().to_bytes(), b"root").unwrap();
    assert!(area == read("crates/lines/data/misnamed.area"));
    assert!(text == read("crates/lines/data/misnamed.model"));
    let printed = lines::printed(&Answer::read(&area).unwrap(), &text);
    assert_eq!(printed.as_bytes(), read("crates/lines/stdout"));
    let readme = String::from_utf8(read("README.md")).unwrap();
    let shown: String = printed
        .lines()
        .map(|line| format!("       {line}\n"))
        .collect();
    assert!(readme.contains(&shown), "{shown}");
}
