//! Changed copies of cases: bytes and words of any file, records and sections of files with a trailer, fields that keep the
//! layout, parts of one file's models among another's, and root names.

mod bytes;
mod fields;
mod parts;
mod sections;

use crate::lend::{FILE, ROOT};
use generate::prng::Random;
use generate::{damage, Case};
use treefile::File;

/// How a case came about.
const LABEL: &str = "mutated";
/// In so many of a hundred cases every change keeps the layout.
const KEEPING: usize = 50;
/// The first change that keeps it.
const KEPT: usize = 52;

/// One to four changes of a case, `other` being a case to take parts from.
pub fn mutate(random: &mut Random, case: &Case, other: &Case) -> Case {
    let mut changed = case.clone();
    let first = if random.chance(KEEPING) { KEPT } else { 0 };
    for _ in 0..random.weighted(&[(50, 1), (25, 2), (15, 3), (10, 4)]) {
        change(random, &mut changed, other, first);
    }
    changed.bytes.truncate(FILE);
    changed.root.truncate(ROOT);
    changed.label = LABEL;
    changed
}

/// One change; those with numbers from [`KEPT`] on keep the layout.
fn change(random: &mut Random, case: &mut Case, other: &Case, first: usize) {
    let bytes = &case.bytes;
    let changed = match random.between(first, 99) {
        0..=7 => Some(bytes::flip(random, bytes)),
        8..=21 => Some(bytes::word(random, bytes)),
        22..=25 => Some(bytes::length(random, bytes)),
        26..=33 => Some(damage::randomly(random, bytes)),
        34..=43 => sections::records(random, bytes),
        44..=51 => sections::splice(random, bytes, &other.bytes),
        KEPT..=71 => fields::change(random, bytes),
        72..=94 => parts::mix(random, bytes, &other.bytes),
        _ => {
            case.root = root(random, case, other);
            None
        }
    };
    if let Some(changed) = changed {
        case.bytes = changed;
    }
}

/// Another root name: a name of the file, the other case's, one with a byte changed, put in or taken out, or anything.
fn root(random: &mut Random, case: &Case, other: &Case) -> Vec<u8> {
    let mut root = case.root.clone();
    let at = random.below(root.len() + 1);
    match random.below(8) {
        0 => other.root.clone(),
        1 if at < root.len() => {
            root[at] ^= 1 << random.below(8);
            root
        }
        2 => {
            root.insert(at, random.bits() as u8);
            root
        }
        3 if at < root.len() => {
            root.remove(at);
            root
        }
        4 => vec![random.bits() as u8; random.below(ROOT)],
        _ => match File::open(&case.bytes) {
            Ok(file) if !file.models.is_empty() => {
                let model = random.pick(&file.models);
                file.name(model.name).to_vec()
            }
            _ => root,
        },
    }
}
