//! One case with areas of several lengths: what each call has to give follows from the answer.

use crate::lend::{lend, lend_nothing, Given};
use area::layout::MOST_BYTES;
use area::Sections;
use generate::prng::Random;
use record::Case;

/// The refusal of an area that is shorter than the answer.
const SHORT: u32 = 1;

/// Runs a case with an area that is exact, longer, one byte short, shorter, and empty; a refused one with areas of any
/// length. Returns the number of calls, or the first difference.
pub fn check(case: &Case, seed: u64) -> Result<u64, String> {
    let mut random = Random::new(seed);
    let mut lengths = match case.number {
        0 => around(case.area.len(), &mut random),
        _ => vec![
            MOST_BYTES,
            random.below(MOST_BYTES + 100),
            random.between(1, 40),
        ],
    };
    lengths.push(0);
    for length in &lengths {
        let given = lend(&case.file, &case.root, *length, &mut random)?;
        same(case, &given)?;
    }
    same(case, &lend_nothing(&case.file, &case.root))?;
    Ok(lengths.len() as u64 + 1)
}

/// Lengths about that of the answer: it, longer by a little, by more or over the most, one byte short, and shorter.
fn around(exact: usize, random: &mut Random) -> Vec<usize> {
    let longer = match random.below(3) {
        0 => exact + random.between(1, 8),
        1 => exact + random.between(1, 4_096),
        _ => MOST_BYTES + random.between(1, 200),
    };
    vec![exact, longer, exact - 1, random.below(exact)]
}

/// Whether a call gave what is due for the length of its area.
fn same(case: &Case, given: &Given) -> Result<(), String> {
    let length = given.area.len();
    let (number, answer) = match case.number {
        0 if length < case.area.len() => (SHORT, &[][..]),
        number => (number, &case.area[..]),
    };
    let fail = |what: String| Err(format!("{what}, with an area of {length} bytes"));
    if given.number != number {
        return fail(format!("the number is {}, not {number}", given.number));
    }
    if given.used != answer.len() {
        return fail(format!("{} bytes used, not {}", given.used, answer.len()));
    }
    let due = answer.iter().chain(std::iter::repeat(&0));
    match given.area.iter().zip(due).position(|(a, b)| a != b) {
        Some(at) => fail(format!("{} differs", place(at, answer))),
        None => Ok(()),
    }
}

/// Where a byte of the area that is to hold this answer stands, in words.
fn place(at: usize, answer: &[u8]) -> String {
    Sections::read(answer).map_or_else(|| format!("byte {at}"), |answer| answer.place(at))
}
