//! Typed records: what they say of a small answer, and that an area that breaks the layout is not read.

use builder::{build, build_into, layout, Answer, Equation, Fate, NodeKind};
use treefile::examples::{P1, P8};

fn file(text: &str) -> Vec<u8> {
    let source = treefile::text::parse(text).expect("a text");
    source.assemble().to_bytes()
}

#[test]
fn the_first_example() {
    let bytes = file(P1);
    let opened = treefile::File::open(&bytes).unwrap();
    let answer = build(&bytes, b"root").unwrap();
    assert_eq!((answer.instances, answer.error_count), (1, 0));
    assert_eq!((answer.time.lower, answer.time.upper), (0.0, f64::INFINITY));
    assert_eq!(answer.bytes, 396);
    let x = opened.find_name(b"x").unwrap();
    let rate = answer.statements[0];
    assert_eq!(rate.equation, Equation::Rate { name: x, right: 1 });
    assert_eq!(rate.fate, Fate::Held(1));
    let start = answer.statements[1];
    assert_eq!(start.equation, Equation::Plain { left: 4, right: 5 });
    assert_eq!(start.fate, Fate::InitialCondition(1));
    assert_eq!(answer.nodes[1].kind, NodeKind::Unary(b'-'));
    assert_eq!(answer.children(4), [3]);
    let variable = &answer.variables[1];
    assert_eq!((variable.name, variable.held), (Some(x), Some(0)));
    assert_eq!(
        (variable.time_index, variable.initial_conditions),
        (Some(0), 1)
    );
    assert!(variable.is_state && variable.is_time_dependent);
    assert_eq!(answer.dependents_of(variable), [0]);
    assert_eq!(answer.initial_conditions_of(1), [1]);
    assert_eq!(answer.fates(), [1, 1, 0, 0]);
}

#[test]
fn a_submodel_brings_its_statements_in() {
    let answer = build(&file(P8), b"root").unwrap();
    assert_eq!(answer.instances, 2);
    assert_eq!(answer.fates(), [1, 1, 0, 0]);
}

/// Some words must be as they are; no damage makes reading panic, and what is read keeps the counts.
#[test]
fn damaged_areas() {
    let mut area = vec![0; 600];
    let used = build_into(&file(P1), b"root", &mut area).unwrap();
    assert!(Answer::read(&area).is_ok() && Answer::read(&area[..used]).is_ok());
    assert!(Answer::read(&area[..used - 1]).is_err());
    assert!(Answer::read(&[]).is_err());
    let mut broken = 0;
    for at in (0..area.len()).step_by(4) {
        for change in [1, 2, 0xFF, u32::MAX] {
            let mut damaged = area.clone();
            let word = u32::from_le_bytes(damaged[at..at + 4].try_into().unwrap());
            damaged[at..at + 4].copy_from_slice(&(word ^ change).to_le_bytes());
            match Answer::read(&damaged) {
                Err(_) => broken += 1,
                Ok(answer) => assert!(answer.bytes <= layout::MOST_BYTES),
            }
        }
    }
    assert!(broken > 400, "{broken}");
}
