//! Changes of whole records and sections; the trailer's counts are mended, the records are not.

use generate::prng::Random;
use std::ops::Range;
use treefile::records::{FORM, RECORD_BYTES, TRAILER};

/// Each section's bytes, of a file whose length agrees with its trailer.
fn sections(bytes: &[u8]) -> Option<Vec<Vec<u8>>> {
    let trailer = bytes.len().checked_sub(TRAILER)?;
    let mut start = 0usize;
    let mut found = Vec::new();
    for (i, length) in RECORD_BYTES.into_iter().enumerate() {
        let at = trailer + 4 * i;
        let count = u32::from_le_bytes([0, 1, 2, 3].map(|b| bytes[at + b]));
        let end = start.checked_add(length.checked_mul(count as usize)?)?;
        found.push(bytes[..trailer].get(start..end)?.to_vec());
        start = end;
    }
    (start == trailer).then_some(found)
}

/// The file of these sections, with their counts.
fn file(sections: &[Vec<u8>]) -> Vec<u8> {
    let mut bytes = sections.concat();
    for (section, length) in sections.iter().zip(RECORD_BYTES) {
        bytes.extend(((section.len() / length) as u32).to_le_bytes());
    }
    bytes.extend(FORM.to_le_bytes());
    bytes
}

/// The bytes of some record of a section that has one.
fn record(random: &mut Random, section: &[u8], length: usize) -> Range<usize> {
    let start = random.below(section.len() / length) * length;
    start..start + length
}

/// Two records of a section swapped, one copied over another or put in once more, some left out, or the section emptied.
pub fn records(random: &mut Random, bytes: &[u8]) -> Option<Vec<u8>> {
    let mut sections = sections(bytes)?;
    let filled: Vec<usize> = (0..7).filter(|i| !sections[*i].is_empty()).collect();
    if filled.is_empty() {
        return None;
    }
    let chosen = *random.pick(&filled);
    let length = RECORD_BYTES[chosen];
    let section = &mut sections[chosen];
    let (a, b) = (
        record(random, section, length),
        record(random, section, length),
    );
    match random.below(8) {
        0..=3 => {
            let kept = section[a.clone()].to_vec();
            section.copy_within(b.clone(), a.start);
            section[b].copy_from_slice(&kept);
        }
        4 => section.copy_within(a, b.start),
        5 => {
            let more = section[a].to_vec();
            section.splice(b.start..b.start, more);
        }
        6 => drop(section.drain(a.start.min(b.start)..a.end.max(b.end))),
        _ => section.clear(),
    }
    Some(file(&sections))
}

/// Sections of two files: whole ones, or the records of one put behind those of the other.
pub fn splice(random: &mut Random, bytes: &[u8], other: &[u8]) -> Option<Vec<u8>> {
    let (mut own, other) = (sections(bytes)?, sections(other)?);
    for (section, theirs) in own.iter_mut().zip(&other) {
        match random.below(4) {
            0 => section.clone_from(theirs),
            1 if random.chance(30) => section.extend(theirs),
            _ => (),
        }
    }
    Some(file(&own))
}
