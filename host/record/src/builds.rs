//! The recorded builds: the worked examples, the generator's fixed cases, generated cases chosen so that everything
//! comes up several times, and damaged files.

use crate::pack::Case;
use std::collections::BTreeMap;
use treefile::examples;

/// The first seed.
pub const SEED: u64 = 1;
/// How many seeds are tried.
const SEEDS: u64 = 4_000;
/// The largest file.
pub const MOST_BYTES: usize = 1_500;
/// How many generated cases are kept.
const GENERATED: usize = 330;
/// How many cases are damaged, and how many of the damaged files are kept of each.
const DAMAGED: (usize, usize) = (40, 4);
/// How often each error, refusal and fate is to come up.
const WANTED: usize = 12;
/// A case that shows nothing wanted is kept only if file and answer take no more bytes than this.
const SMALL: usize = 900;

/// A case and what it shows.
struct Shown {
    case: Case,
    /// Errors as 100 + kind, refusals as their number, fates as 200 + fate.
    shows: Vec<u32>,
}

/// All recorded builds, no two equal. The original source must be there.
pub fn cases() -> Vec<Case> {
    oracle::deep::call(|| {
        let mut cases: Vec<Case> = Vec::new();
        for (file, root) in worked().into_iter().chain(by_hand()) {
            add(&mut cases, shown(file, root).case);
        }
        let generated = generated();
        let damaged = damaged(&generated);
        for case in generated.into_iter().chain(damaged) {
            add(&mut cases, case);
        }
        cases
    })
}

fn add(cases: &mut Vec<Case>, case: Case) {
    if !cases.contains(&case) {
        cases.push(case);
    }
}

/// The generator's fixed cases that are small, and builds that are over a most.
fn by_hand() -> Vec<(Vec<u8>, Vec<u8>)> {
    let fixed = generate::fixed().into_iter();
    let small = fixed.filter(|case| case.bytes.len() <= MOST_BYTES);
    let over = over()
        .into_iter()
        .map(|text| (file(&text), b"root".to_vec()));
    small
        .map(|case| (case.bytes, case.root))
        .chain(over)
        .collect()
}

fn file(text: &str) -> Vec<u8> {
    let source = treefile::text::parse(text).expect("a text");
    source.assemble().to_bytes()
}

/// The worked examples, those to be run only among them.
fn worked() -> Vec<(Vec<u8>, Vec<u8>)> {
    let mut worked: Vec<_> = examples::ALL
        .iter()
        .map(|example| (file(example.text), example.root.as_bytes().to_vec()))
        .collect();
    let trailer: Vec<u8> = [0u32, 0, 0, 0, 0, 0, 0, 1]
        .iter()
        .flat_map(|w| w.to_le_bytes())
        .collect();
    for bytes in [Vec::new(), vec![0; 31], trailer] {
        worked.push((bytes, b"root".to_vec()));
    }
    worked
}

/// Small files whose builds are over a most: instances, nodes, statements, and the first with a short left side.
fn over() -> Vec<String> {
    vec![
        calls(4, 5, "", ""),
        calls(6, 3, "-1 + 1 = 1", ""),
        calls(4, 4, "1 = 1", "1 = 1"),
        calls(4, 5, "", "x() = 1"),
    ]
}

/// Models that each call the one before so many times; the first and the root have a statement.
fn calls(times: usize, levels: usize, first: &str, last: &str) -> String {
    let mut text = format!("model M0() {{ {first} }}");
    for level in 1..=levels {
        let below = format!("M{}(); ", level - 1).repeat(times);
        let (name, unknowns, last) = if level == levels {
            ("root".to_string(), "x(t)", last)
        } else {
            (format!("M{level}"), "", "")
        };
        text += &format!(" model {name}({unknowns}) {{ {below}{last} }}");
    }
    text
}

fn shown(file: Vec<u8>, root: Vec<u8>) -> Shown {
    let judged = oracle::judge(&file, &root, area::layout::MOST_BYTES)
        .unwrap_or_else(|error| panic!("cross-check failed: {error}"));
    let case = Case::of(file, root, judged.answer).unwrap_or_else(|reason| panic!("{reason}"));
    let number = case.number;
    let mut shows: Vec<u32> = (number > 0).then_some(number).into_iter().collect();
    if let Some(area) = judged.area {
        shows.extend(area.errors.iter().map(|error| 100 + error.kind));
        shows.extend(area.stmts.iter().map(|stmt| 200 + stmt.fate));
    }
    shows.sort();
    shows.dedup();
    Shown { case, shows }
}

/// Generated cases: first those that show something still wanted, then small ones.
fn generated() -> Vec<Case> {
    let made = |seed| {
        let case = generate::small_case(seed, MOST_BYTES);
        shown(case.bytes, case.root)
    };
    let mut seen: BTreeMap<u32, usize> = BTreeMap::new();
    let mut cases = Vec::new();
    for Shown { case, shows } in (SEED..SEED + SEEDS).map(made) {
        let wanted = |value: &u32| seen.get(value).copied().unwrap_or(0) < WANTED;
        if shows.iter().any(wanted) {
            for value in shows {
                *seen.entry(value).or_default() += 1;
            }
            cases.push(case);
        }
    }
    let rest = (SEED..SEED + SEEDS).map(|seed| made(seed).case);
    for case in rest.filter(|case| case.file.len() + case.area.len() <= SMALL) {
        if cases.len() < GENERATED {
            add(&mut cases, case);
        }
    }
    cases
}

/// Damaged files made from the smallest accepted cases, with whatever they answer.
fn damaged(cases: &[Case]) -> Vec<Case> {
    let mut sound: Vec<&Case> = cases.iter().filter(|case| case.number == 0).collect();
    sound.sort_by_key(|case| case.file.len());
    let mut kept: Vec<Case> = Vec::new();
    for case in sound.iter().take(DAMAGED.0) {
        let files: Vec<Vec<u8>> = generate::damaged(&case.file).collect();
        let step = files.len() / DAMAGED.1 + 1;
        let first = kept.len() % step;
        for file in files.into_iter().skip(first).step_by(step) {
            kept.push(shown(file, case.root.clone()).case);
        }
    }
    kept
}
