//! Whole sheets: the freeze-drying example word for word, errors, refusals, and answers that are not the file's.

use builder::Answer;
use sheet::{accepted, refused, statements_in, Case, Sheet, Text};
use treefile::File;

fn opened(text: &str) -> (File, Vec<u8>) {
    let file = treefile::text::parse(text).expect("a text").assemble();
    let bytes = file.to_bytes();
    (file, bytes)
}

fn built(text: &str) -> Answer {
    builder::build(&opened(text).1, b"root").expect("accepted")
}

/// The sheet of a text's file with some answer.
fn sheet_with(text: &str, answer: &Answer, with_source: bool) -> Result<Sheet, String> {
    let (file, bytes) = opened(text);
    let source = Text(text);
    accepted(
        &Case {
            title: "a.model",
            file: &file,
            bytes: bytes.len(),
            root: b"root",
            source: with_source.then_some(&source),
        },
        answer,
    )
}

fn sheet(text: &str) -> Sheet {
    sheet_with(text, &built(text), true).expect("a sheet")
}

fn in_repository(path: &str) -> Vec<u8> {
    let path = format!("{}/../../{path}", env!("CARGO_MANIFEST_DIR"));
    std::fs::read(&path).unwrap_or_else(|error| panic!("{path}: {error}"))
}

fn example() -> String {
    String::from_utf8(in_repository("examples/freeze_drying.model")).unwrap()
}

#[test]
fn the_freeze_drying_example() {
    let sheet = sheet(&example());
    let expected = String::from_utf8(in_repository("examples/freeze_drying.sheet")).unwrap();
    let expected = expected.replace("examples/freeze_drying.model", "a.model");
    assert_eq!(sheet.text, expected);
    assert!(sheet.is_clean);
}

/// The program `release` is run on this example's tree file.
#[test]
fn the_release_program_runs_on_the_same_example() {
    let (_, bytes) = opened(&example());
    assert!(in_repository("crates/release/data/freeze_drying.tree") == bytes);
    let answer = built(&example());
    let [initial, held, replaced, left] = answer.fates();
    let line = format!(
        "number 0 bytes {} errors {} statements {}: initial conditions {initial}, held {held}, replaced {replaced}, left over {left}\n",
        answer.bytes,
        answer.error_count,
        answer.statements.len(),
    );
    assert_eq!(
        String::from_utf8(in_repository("crates/release/stdout")).unwrap(),
        line
    );
}

#[test]
fn errors_have_words_lines_and_columns() {
    let sheet = sheet("model root(x(t)) {\n    dot(x) = -y;\n    x(1) = 1\n}\n");
    assert!(!sheet.is_clean);
    for line in [
        "ERRORS: 4",
        "error 5   line 2, column 15     y is no variable",
        "error 12  line 3, column 7      x is given a value at another time than time's lower bound",
        "error 15  line 1, column 1      overdetermined",
        "error 16  line 1, column 1      state x holds a rate equation and has no initial condition",
        "statement 2 (line 3, column 5) is NOT USED: it is left over",
    ] {
        assert!(sheet.text.contains(line), "{line} in\n{}", sheet.text);
    }
}

#[test]
fn without_the_source_places_are_bytes_and_texts_come_from_the_nodes() {
    let text = "model root(x(t)) { dot(x) =   -x;   x( 0 )=1 }";
    let sheet = sheet_with(text, &built(text), false).unwrap();
    assert!(sheet.text.contains("bytes 19 to 32"), "{}", sheet.text);
    assert!(sheet.text.contains("dot(x) = -x\n") && sheet.text.contains("x(0) = 1\n"));
}

#[test]
fn refusals_say_who_can_mend_them() {
    for refusal in builder::Refusal::ALL {
        let sheet = refused("a.model", b"root", refusal);
        let number = format!("REFUSED by {}: {}", refusal.number(), refusal.sentence());
        assert!(sheet.text.contains(&number) && !sheet.is_clean);
        assert!(sheet
            .text
            .contains(&format!("to mend    {}", refusal.mender())));
    }
}

#[test]
fn statements_are_counted_through_submodels() {
    let text = "model A() { 1 = 1; 2 = 2 } model B() { A(); A(); 3 = 3 } \
                model root(x(t)) { B(); A(); dot(x) = 1; Nowhere(); B() }";
    let (file, _) = opened(text);
    let into = statements_in(&file, b"root").unwrap();
    assert_eq!(
        (into.equations.len(), into.submodels, into.missing),
        (13, 7, 1)
    );
    assert_eq!((into.records(), into.instances()), (21, 8));
    assert_eq!(built(text).statements.len(), 13);
    let sheet = sheet(text);
    let line = "statements in      13  counted in the tree file: 21 statements in all instances less 8 submodel statements";
    assert!(sheet.text.contains(line), "{}", sheet.text);
    assert!(sheet.text.contains("1 of them of a missing model"));
    let (cycle, _) = opened("model root() { root() }");
    assert_eq!(statements_in(&cycle, b"root"), None);
    assert_eq!(statements_in(&file, b"other"), None);
}

#[test]
fn an_answer_of_another_file_has_no_sheet() {
    let text = "model root(x(t)) { dot(x) = -x; x(0) = 1 }";
    let other = "model root(x(t)) { x(0) = 1; dot(x) = -x }";
    let more = "model root(x(t), y) { dot(x) = -x; x(0) = 1 }";
    assert!(sheet_with(text, &built(other), true).is_err());
    assert!(sheet_with(text, &built(more), true).is_err());
    assert!(sheet_with(text, &built(text), true).is_ok());
}

#[test]
fn a_missing_or_added_statement_shows_in_the_totals() {
    let text = "model root(x(t)) { dot(x) = -x; x(0) = 1 }";
    let mut answer = built(text);
    let last = answer.statements.pop().unwrap();
    let sheet = sheet_with(text, &answer, true).unwrap();
    assert!(sheet.text.contains("NOT EQUAL") && !sheet.is_clean);
    answer.statements.extend([last, last]);
    let sheet = sheet_with(text, &answer, true).unwrap();
    assert!(sheet.text.contains("NOT EQUAL") && !sheet.is_clean);
}
