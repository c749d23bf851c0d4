//! Random models with their own texts: the program against a count in Rust, and against the witness sheet's places.

use builder::Answer;
use lines::{area_of, lines_of, text_and_area};
use sheet::Text;
use std::fs;
use std::path::{Path, PathBuf};

const MODELS: usize = 3000;

#[test]
fn lines_and_columns_of_random_models() {
    let folder = folder("random");
    let (mut models, mut errors, mut wide) = (0, 0, 0);
    let mut texts = (1..).filter_map(text_and_area);
    while models < MODELS {
        let (text, area) = texts.next().expect("there is no end");
        let answer = Answer::read(&area).expect("an accepted area keeps its layout");
        let said = lines_of(&folder, &area, text.as_bytes());
        assert_eq!(said, lines::printed(&answer, text.as_bytes()), "{text}");
        assert_eq!(said.lines().count(), answer.errors.len());
        if text.is_ascii() {
            assert_eq!(said, of_sheet(&answer, &text), "{text}");
        } else {
            wide += 1;
        }
        models += 1;
        errors += answer.errors.len();
    }
    assert!(errors > MODELS, "{errors}");
    assert!((MODELS / 20..MODELS * 19 / 20).contains(&wide), "{wide}");
}

/// A folder of a test's own.
fn folder(name: &str) -> PathBuf {
    let path = Path::new(env!("CARGO_TARGET_TMPDIR")).join(name);
    fs::create_dir_all(&path).expect("made");
    path
}

/// The same by the witness sheet's own lines and columns, which count characters.
fn of_sheet(answer: &Answer, text: &str) -> String {
    let line = |error: &builder::Error| {
        let span = error.span;
        let place = span.and_then(|span| Text(text).line_and_column(span.start));
        let (line, column) = place.unwrap_or((0, 0));
        format!("{line} {column} {}\n", error.kind.number())
    };
    answer.errors.iter().map(line).collect()
}

/// Bytes where the sheet has characters: `ß` is two bytes.
#[test]
fn columns_are_bytes() {
    let text = "model root(x(t)) { # ß\n \"ß\" = \"ß\"; dot(x) = y; x(0) = 1 }";
    let file = treefile::text::parse(text).unwrap().assemble().to_bytes();
    let area = area_of(&file, b"root").unwrap();
    let answer = Answer::read(&area).unwrap();
    let folder = folder("wide");
    let said = lines_of(&folder, &area, text.as_bytes());
    assert_eq!(said, lines::printed(&answer, text.as_bytes()));
    assert_ne!(said, of_sheet(&answer, text));
}
