//! Every recorded answer: the library's is the same, and is read into records that agree with its header.

use builder::{build_into, layout, Answer};

fn cases() -> Vec<record::Case> {
    let path = concat!(env!("CARGO_MANIFEST_DIR"), "/../../crates/replay/stdin");
    record::read(&std::fs::read(path).unwrap_or_else(|error| panic!("{path}: {error}")))
}

#[test]
fn the_library_answers_what_was_recorded() {
    let mut area = vec![0xAA; layout::MOST_BYTES];
    for (i, case) in cases().iter().enumerate() {
        match build_into(&case.file, &case.root, &mut area) {
            Ok(used) => assert!(case.number == 0 && area[..used] == case.area, "case {i}"),
            Err(refusal) => assert_eq!(refusal.number(), case.number, "case {i}"),
        }
    }
}

#[test]
fn recorded_answers_are_read() {
    let mut read = 0;
    for (i, case) in cases().iter().enumerate().filter(|(_, c)| c.number == 0) {
        let answer = Answer::read(&case.area).unwrap_or_else(|broken| panic!("case {i}: {broken}"));
        assert_eq!(answer.bytes, case.area.len(), "case {i}");
        for (number, variable) in answer.variables.iter().enumerate() {
            let starts = answer.initial_conditions_of(number as u32).len();
            assert_eq!(variable.initial_conditions as usize, starts, "case {i}");
        }
        assert_eq!(
            answer.fates().iter().sum::<usize>(),
            answer.statements.len(),
            "case {i}"
        );
        read += 1;
    }
    assert!(read > 100, "{read}");
}
