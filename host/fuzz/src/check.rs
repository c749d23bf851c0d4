//! One case: its calls, and what has to hold of each.

use crate::features;
use crate::lend::{Bench, Given, AREA};
use crate::pages::Side;
use crate::shape;
use area::layout::MOST_BYTES;
use area::Sections;
use generate::prng::Random;
use generate::Case;
use treefile::File;

/// The refusal of an area that is shorter than the answer.
const SHORT: u32 = 1;
/// The refusal of a root name that no model has.
const NO_ROOT: u32 = 5;
/// The largest refusal.
const LAST: u32 = 10;

/// What a case gave.
pub struct Seen {
    /// 0 where the build is accepted, else the refusal.
    pub number: u32,
    /// The calls that were made.
    pub calls: u64,
    /// What the answer shows.
    pub features: Vec<u64>,
}

/// Builds a case at both sides of the pages, with an area that is long enough, one of another length, and where it is
/// accepted one that is a byte short; checks what each call gives.
pub fn check(bench: &mut Bench, case: &Case, random: &mut Random) -> Result<Seen, String> {
    let side = *random.pick(&[Side::Front, Side::Back]);
    let given = bench.build(case, random.between(MOST_BYTES, AREA), side)?;
    returned(&given)?;
    let number = given.number;
    let answer = given.area[..given.used].to_vec();
    let file = File::open(&case.bytes);
    opens(&file, &case.root, number)?;
    if number != 0 {
        let length = match random.below(4) {
            0 => 0,
            1 => 1,
            2 => random.below(64),
            _ => random.below(MOST_BYTES),
        };
        let again = bench.build(case, length, side.other())?;
        returned(&again)?;
        if again.number != number {
            return Err(format!(
                "{number}, then {} with {length} bytes",
                again.number
            ));
        }
        return Ok(Seen {
            number,
            calls: 2,
            features: features::of_refusal(case, number),
        });
    }
    let words = Sections::read(&answer).ok_or("the answer's sections do not fill it")?;
    let names = file.map_or(0, |file| file.names.len());
    shape::check(&words, names)?;
    let again = bench.build(case, answer.len(), side.other())?;
    returned(&again)?;
    if again.number != 0 || again.area != answer {
        return Err(format!("another answer with an area of {}", answer.len()));
    }
    for side in [side, side.other()] {
        let short = bench.build(case, answer.len() - 1, side)?;
        returned(&short)?;
        if short.number != SHORT {
            return Err(format!("{} with an area a byte short", short.number));
        }
    }
    Ok(Seen {
        number,
        calls: 4,
        features: features::of_answer(&words),
    })
}

/// The number is one that exists, the bytes used are within the area and 0 at a refusal, and zeros stand behind them.
fn returned(given: &Given) -> Result<(), String> {
    let (number, used, length) = (given.number, given.used, given.area.len());
    if number > LAST {
        return Err(format!("the number {number}"));
    }
    if used > length.min(MOST_BYTES) || (number != 0) != (used == 0) {
        return Err(format!("{used} bytes used of {length}, number {number}"));
    }
    match given.area[used..].iter().position(|byte| *byte != 0) {
        Some(at) => Err(format!(
            "byte {at} behind the {used} used is not zero, number {number}"
        )),
        None => Ok(()),
    }
}

/// Refusals 2 to 5 come exactly where the file's layout and its models' names ask for them, and 1 never with this area.
fn opens(file: &Result<File, u32>, root: &[u8], number: u32) -> Result<(), String> {
    let due = match file {
        Err(refusal) => Some(*refusal),
        Ok(file) => {
            let bears = |m: &treefile::Model| file.name(m.name) == root;
            (!file.models.iter().any(bears)).then_some(NO_ROOT)
        }
    };
    match due {
        Some(due) if number != due => Err(format!("the number is {number}, not {due}")),
        None if (SHORT..=NO_ROOT).contains(&number) => Err(format!(
            "{number} for a file that opens and a root that is there"
        )),
        _ => Ok(()),
    }
}
