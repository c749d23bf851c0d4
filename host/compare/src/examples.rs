//! The examples of document 01. Their answers are written out there, so no judge is needed.

use crate::lend::{lend, Given};
use area::{Area, Sections};
use generate::prng::Random;
use treefile::examples::{Example, ALL, P1};
use treefile::{File, Name};

/// More than any answer needs.
const ROOM: usize = 60_000;

/// Builds the worked examples: refusals, kinds of errors and fates are as written. Returns how many there are.
pub fn worked() -> Result<usize, String> {
    for example in &ALL {
        let given = build(&file(example.text), example.root, ROOM)?;
        as_written(example, &given).map_err(|what| format!("{}: {what}", example.label))?;
    }
    Ok(ALL.len())
}

fn as_written(example: &Example, given: &Given) -> Result<(), String> {
    if given.number != example.refusal {
        return Err(format!("{}, not {}", given.number, example.refusal));
    }
    if example.refusal > 0 {
        return Ok(());
    }
    let used = given.area.get(..given.used);
    let area = Area::of(&used.and_then(Sections::read).ok_or("no answer")?);
    let errors: Vec<u32> = area.errors.iter().map(|error| error.kind).collect();
    let fates: Vec<u32> = area.stmts.iter().map(|stmt| stmt.fate).collect();
    if (&errors[..], &fates[..]) != (example.errors, example.fates) {
        return Err(format!("errors {errors:?}, fates {fates:?}"));
    }
    Ok(())
}

/// Builds the examples that are to be run only: file, length of the area, number and bytes used. Returns how many there are.
pub fn run_only() -> Result<usize, String> {
    let one = file(P1);
    let trailer = File::default().to_bytes();
    let cases = [
        ("an empty file", Vec::new(), ROOM, 2, 0),
        ("31 bytes", vec![0; 31], ROOM, 2, 0),
        ("a trailer alone", trailer, ROOM, 5, 0),
        ("256 names", named(256), ROOM, 0, 396),
        ("257 names", named(257), ROOM, 3, 0),
        ("P1 with 396 bytes", one.clone(), 396, 0, 396),
        ("P1 with 395 bytes", one, 395, 1, 0),
    ];
    for (label, file, length, number, used) in &cases {
        let given = build(file, "root", *length)?;
        if (given.number, given.used) != (*number, *used) {
            return Err(format!("{label}: {}, {} bytes", given.number, given.used));
        }
    }
    Ok(cases.len())
}

fn build(file: &[u8], root: &str, length: usize) -> Result<Given, String> {
    lend(file, root.as_bytes(), length, &mut Random::new(1))
}

fn file(text: &str) -> Vec<u8> {
    let source = treefile::text::parse(text).expect("a text");
    source.assemble().to_bytes()
}

/// P1 with further names, up to so many.
fn named(count: usize) -> Vec<u8> {
    let mut file = File::open(&file(P1)).expect("a file");
    for extra in file.names.len()..count {
        let start = file.text.len() as u32;
        file.text.extend(format!("n{extra}").bytes());
        let len = file.text.len() as u32 - start;
        file.names.push(Name { start, len });
    }
    file.to_bytes()
}
