//! A spoiled answer is noticed, changes of a file hang on the seed alone, and lengths are not cut to 32 bits.

use crate::lend::Bench;
use crate::mutate::mutate;
use crate::pages::{Pages, Side};
use crate::{check, features, shape};
use area::layout::MOST_BYTES;
use area::Sections;
use generate::prng::Random;
use generate::Case;
use treefile::examples::{P1, P2, P3};
use treefile::File;

/// More than a word of 32 bits holds.
const FOUR_GIB: usize = 1 << 32;

fn case(text: &str) -> Case {
    let source = treefile::text::parse(text).unwrap();
    Case {
        bytes: source.assemble().to_bytes(),
        root: b"root".to_vec(),
        label: "example",
    }
}

fn answer(case: &Case) -> Vec<u8> {
    let mut bench = Bench::new(1);
    let given = bench.build(case, MOST_BYTES, Side::Back).unwrap();
    assert_eq!(given.number, 0);
    given.area[..given.used].to_vec()
}

/// Whether an answer with a word changed is still one that could be.
fn passes(answer: &[u8], word: usize, value: u32, names: usize) -> bool {
    let mut spoiled = answer.to_vec();
    spoiled[4 * word..4 * word + 4].copy_from_slice(&value.to_le_bytes());
    Sections::read(&spoiled).is_some_and(|words| shape::check(&words, names).is_ok())
}

#[test]
fn the_examples_pass() {
    let mut bench = Bench::new(1);
    for example in [P1, P2, P3] {
        for seed in 0..20 {
            let mut random = Random::new(seed);
            assert!(check::check(&mut bench, &case(example), &mut random).is_ok());
        }
    }
}

/// P1 has 6 nodes from word 10 on, 2 statements from 58, 2 variables from 74, 1 dependent at 98.
#[test]
fn spoiled_words_are_noticed() {
    let answer = answer(&case(P1));
    let names = File::open(&case(P1).bytes).unwrap().names.len();
    assert!(passes(&answer, 14, 0, names), "a span may be anywhere");
    let counts = [(0, 5), (1, 1), (2, 3), (3, 0), (4, 1), (5, 0), (5, 1025)];
    let nodes = [(10, 7), (11, 200), (13, 2), (16, 1), (20, 0), (21, 1)];
    let stmts = [
        (58, 3),
        (59, 200),
        (61, 0),
        (64, 1),
        (64, 5),
        (65, 0),
        (65, 2),
    ];
    let variables = [
        (86, 0),
        (86, 257),
        (87, 0),
        (88, 0),
        (89, 1),
        (90, 0),
        (91, 0),
    ];
    let more = [(91, 2), (92, 0), (93, 0), (98, 1), (98, 2)];
    let spoiled = counts.iter().chain(&nodes).chain(&stmts);
    for (word, value) in spoiled.chain(&variables).chain(&more) {
        assert!(!passes(&answer, *word, *value, names), "word {word}");
    }
}

/// P2's three errors are its last twelve words.
#[test]
fn spoiled_errors_are_noticed() {
    let answer = answer(&case(P2));
    let names = File::open(&case(P2).bytes).unwrap().names.len();
    let first = answer.len() / 4 - 12;
    for (word, value) in [(0, 0), (0, 18), (3, 0), (3, 200), (7, 1)] {
        assert!(!passes(&answer, first + word, value, names), "word {word}");
    }
}

#[test]
fn other_answers_show_other_features() {
    let shown = |text| features::of_answer(&Sections::read(&answer(&case(text))).unwrap());
    assert_eq!(shown(P1), shown(P1));
    assert!(shown(P3).iter().any(|feature| !shown(P1).contains(feature)));
}

#[test]
fn changes_hang_on_the_seed_and_meet_every_refusal_of_the_layout() {
    let (one, other) = (case(P3), generate::case(7));
    let mut met = [0; 5];
    for seed in 0..2_000 {
        let changed = mutate(&mut Random::new(seed), &one, &other);
        assert_eq!(changed, mutate(&mut Random::new(seed), &one, &other));
        met[File::open(&changed.bytes).map_or_else(|refusal| refusal, |_| 0) as usize] += 1;
    }
    assert!(
        met[0] > 500 && met[2] > 10 && met[3] > 10 && met[4] > 100,
        "{met:?}"
    );
}

/// A file that is right but for 4 GiB between its sections and its trailer, and a root name with 4 GiB behind it.
#[test]
fn lengths_are_not_cut() {
    let Case { bytes, root, .. } = case(P1);
    let mut area = vec![1; MOST_BYTES];
    let mut pages = Pages::new(FOUR_GIB + bytes.len());
    let place = pages.place(FOUR_GIB + bytes.len(), Side::Front);
    let long = &mut pages.all()[place];
    let (sections, trailer) = bytes.split_at(bytes.len() - 32);
    long[..sections.len()].copy_from_slice(sections);
    let end = long.len() - 32;
    long[end..].copy_from_slice(trailer);
    assert_eq!(builder_sys::build(long, &root, &mut area), 4);
    assert!(area.iter().all(|byte| *byte == 0));
    long[..root.len()].copy_from_slice(&root);
    let long_root = &long[..FOUR_GIB + root.len()];
    assert_eq!(builder_sys::build(&bytes, long_root, &mut area), 5);
    assert_eq!(builder_sys::build(&bytes, &root, &mut area), 396 << 32);
}
