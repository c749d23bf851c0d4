//! Tests of the random cases as a whole.

use crate::{case, fixed, small_case};
use std::collections::HashSet;
use treefile::source::Source;
use treefile::{text, File};

const SEEDS: u64 = 4_000;

#[test]
fn a_seed_decides_the_case() {
    for seed in 0..300 {
        assert_eq!(case(seed), case(seed));
        assert_eq!(small_case(seed, 900), small_case(seed, 900));
    }
    assert_eq!(fixed(), fixed());
}

#[test]
fn cases_differ() {
    let distinct: HashSet<Vec<u8>> = (0..SEEDS).map(|seed| case(seed).bytes).collect();
    assert!(distinct.len() as u64 > SEEDS * 95 / 100);
}

#[test]
fn most_cases_open_and_are_small() {
    let cases: Vec<_> = (0..SEEDS).map(case).collect();
    let open = cases.iter().filter(|c| File::open(&c.bytes).is_ok());
    assert!(open.count() as u64 > SEEDS * 80 / 100);
    let small = cases.iter().filter(|c| c.bytes.len() < 2048);
    assert!(small.count() as u64 > SEEDS * 60 / 100);
    let large = cases.iter().filter(|c| c.bytes.len() > 8192);
    assert!(large.count() > 10);
}

#[test]
fn undamaged_cases_keep_the_layout() {
    for seed in 0..SEEDS {
        let made = case(seed);
        let opened = File::open(&made.bytes);
        let within = made.label != "damaged" && made.label != "near limits";
        assert!(!within || opened != Err(4), "seed {seed}: {}", made.label);
        assert!(!within || opened != Err(2), "seed {seed}: {}", made.label);
    }
}

#[test]
fn small_cases_are_small_and_not_only_trailers() {
    let mut trailers = 0;
    for seed in 0..500 {
        let made = small_case(seed, 600);
        assert!(made.bytes.len() <= 600);
        trailers += usize::from(made.label == "trailer");
    }
    assert!(trailers < 5);
    assert!(small_case(1, 10).bytes.len() <= 10);
}

#[test]
fn opened_cases_print_and_read_back() {
    for seed in 0..1_000 {
        if let Ok(file) = File::open(&case(seed).bytes) {
            let source = Source::of_file(&file);
            let printed = text::print(&source);
            let read =
                text::parse(&printed).unwrap_or_else(|e| panic!("seed {seed}: {e}\n{printed}"));
            assert_eq!(text::print(&read), printed, "seed {seed}");
        }
    }
}
