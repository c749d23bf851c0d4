//! The reader of areas, `Answer::read`, against the proved test of the layout, on areas of random builds and on such
//! areas changed at random.

use builder::Answer;
use generate::prng::Random;
use lines::{area_of, changed, judged};

const AREAS: usize = 300_000;

/// Areas of accepted builds, each with others made of it.
fn areas() -> impl Iterator<Item = Vec<u8>> {
    let mut random = Random::new(20);
    let built = (1..).filter_map(|seed| {
        let case = generate::small_case(seed, 3000);
        area_of(&case.bytes, &case.root)
    });
    built.flat_map(move |area| {
        let made: Vec<_> = (0..50).map(|_| changed(&mut random, &area)).collect();
        std::iter::once(area).chain(made)
    })
}

#[test]
fn the_reader_and_the_proved_test_agree() {
    let cases = areas().take(AREAS).map(|area| {
        let keeps = Answer::read(&area).is_ok();
        (area, keeps)
    });
    let said = judged(cases);
    assert_eq!((said.areas, said.wrong), (AREAS, 0), "{said:?}");
    assert!(
        said.kept > AREAS / 10 && said.broken > AREAS / 3,
        "{said:?}"
    );
}

/// Of each area that the reader reads, what it gives can be looked at without a panic.
#[test]
fn what_is_read_can_be_used() {
    let read = areas()
        .take(AREAS / 10)
        .filter_map(|area| Answer::read(&area).ok());
    let mut answers = 0;
    for answer in read {
        answers += 1;
        let nodes = 0..answer.nodes.len() as u32;
        assert!(nodes.flat_map(|n| answer.children(n)).count() <= answer.nodes.len());
        let named = answer
            .variables
            .iter()
            .map(|v| answer.dependents_of(v).len());
        assert_eq!(named.sum::<usize>(), answer.dependents.len());
        assert_eq!(
            answer.fates().iter().sum::<usize>(),
            answer.statements.len()
        );
        assert!(answer.largest_name().is_none_or(|name| name < 256));
    }
    assert!(answers > AREAS / 100, "{answers}");
}

#[test]
fn recorded_areas_are_up_to_date() {
    let stored = concat!(env!("CARGO_MANIFEST_DIR"), "/../../crates/area_cases/stdin");
    let stored = std::fs::read(stored).expect("there");
    assert!(stored == lines::pack(), "pack the areas anew");
}
