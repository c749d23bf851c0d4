//! The stored records are those that would be recorded now.

use area::{Area, Sections};
use record::{builds, layout, read, write, Case};

/// Recorded cases are the input of the program that runs them.
fn stored(name: &str) -> Vec<u8> {
    let place = match name {
        "builds.cases" => "../crates/replay/stdin",
        "layout.cases" => "../crates/layout_cases/stdin",
        _ => "record/README.md",
    };
    let path = format!("{}/../{place}", env!("CARGO_MANIFEST_DIR"));
    std::fs::read(&path).unwrap_or_else(|error| panic!("{path}: {error}"))
}

#[test]
fn layout_cases_are_up_to_date() {
    let bytes = write(&layout::cases());
    assert!(bytes.len() < 350_000);
    assert!(bytes == stored("layout.cases"), "record layout anew");
}

#[test]
#[cfg_attr(no_source, ignore = "SKIPPED: the original source is not there")]
fn recorded_builds_are_up_to_date() {
    assert!(
        write(&builds::cases()) == stored("builds.cases"),
        "record cases anew"
    );
}

#[test]
fn the_readme_says_how_many() {
    let readme = String::from_utf8(stored("the readme")).unwrap();
    for name in ["builds.cases", "layout.cases"] {
        let bytes = stored(name);
        let line = format!("| {name} | {} | {} |", read(&bytes).len(), bytes.len());
        assert!(readme.contains(&line), "{line}");
    }
}

#[test]
fn recorded_builds_show_everything() {
    let bytes = stored("builds.cases");
    let cases = read(&bytes);
    assert_eq!(write(&cases), bytes);
    assert!(cases.len() >= 400 && bytes.len() < 600_000);
    let refused = |number: u32| cases.iter().filter(|case| case.number == number).count();
    assert!((2..=10).all(|number| refused(number) >= 3));
    let mut errors = [0; 18];
    let mut fates = [0; 5];
    for case in accepted(&bytes) {
        count(&case, &mut errors, &mut fates);
    }
    assert!(errors[1..].iter().all(|count| *count >= 3), "{errors:?}");
    assert!(fates[1..].iter().all(|count| *count >= 3), "{fates:?}");
}

/// What the records of a recorded answer are written as is that answer.
#[test]
fn recorded_answers_are_read_and_written() {
    for (i, case) in accepted(&stored("builds.cases")).iter().enumerate() {
        let sections = Sections::read(&case.area).unwrap_or_else(|| panic!("case {i}"));
        let area = Area::of(&sections);
        if sections.counts()[4] == area.errors.len() {
            assert!(area.to_bytes() == case.area, "case {i}");
        }
    }
}

fn accepted(pack: &[u8]) -> Vec<Case> {
    let cases = read(pack).into_iter();
    cases.filter(|case| case.number == 0).collect()
}

/// Adds the listed errors' kinds and the statements' fates of an answer.
fn count(case: &Case, errors: &mut [u32; 18], fates: &mut [u32; 5]) {
    let answer = Area::of(&Sections::read(&case.area).expect("an answer"));
    for error in answer.errors {
        errors[error.kind as usize] += 1;
    }
    for stmt in answer.stmts {
        fates[stmt.fate as usize] += 1;
    }
}
