//! Every recorded answer has a sheet with equal totals, and no damage to an area brings the sheet down.

use builder::Answer;
use record::Case as Recorded;
use sheet::{accepted, Case, Sheet};
use treefile::File;

fn accepted_cases() -> Vec<Recorded> {
    let path = concat!(env!("CARGO_MANIFEST_DIR"), "/../../crates/replay/stdin");
    let bytes = std::fs::read(path).unwrap_or_else(|error| panic!("{path}: {error}"));
    let cases = record::read(&bytes).into_iter();
    cases.filter(|case| case.number == 0).collect()
}

fn sheet(case: &Recorded, answer: &Answer) -> Result<Sheet, String> {
    let file = File::open(&case.file).expect("an accepted file keeps the layout");
    accepted(
        &Case {
            title: "recorded",
            file: &file,
            bytes: case.file.len(),
            root: &case.root,
            source: None,
        },
        answer,
    )
}

#[test]
fn every_recorded_answer_has_equal_totals() {
    for (i, case) in accepted_cases().iter().enumerate() {
        let answer = Answer::read(&case.area).expect("an answer");
        let sheet = sheet(case, &answer).unwrap_or_else(|error| panic!("case {i}: {error}"));
        assert!(
            sheet.text.ends_with("the same number: EQUAL\n"),
            "case {i}: {}",
            sheet.text
        );
        assert_eq!(sheet.is_clean, answer.is_clean(), "case {i}");
    }
}

#[test]
fn damaged_areas() {
    let (mut read, mut shown) = (0, 0);
    for case in accepted_cases().iter().step_by(8) {
        for at in (0..case.area.len()).step_by(4) {
            for change in [1, 3, 0x100] {
                let mut area = case.area.clone();
                let word = u32::from_le_bytes(area[at..at + 4].try_into().unwrap());
                area[at..at + 4].copy_from_slice(&(word ^ change).to_le_bytes());
                if let Ok(answer) = Answer::read(&area) {
                    read += 1;
                    shown += usize::from(sheet(case, &answer).is_ok());
                }
            }
        }
    }
    assert!(read > shown && shown > 0, "{read} read, {shown} shown");
}
