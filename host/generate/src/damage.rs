//! Damaged copies of a file: one word or one record at a time, cut short, or with bytes put in.

use crate::prng::Random;
use std::ops::Range;
use treefile::records::{RECORD_BYTES, TRAILER};
use treefile::File;

/// Values that a rule may stumble over.
const TELLING: [u32; 27] = [
    0,
    1,
    2,
    3,
    4,
    5,
    6,
    7,
    31,
    32,
    33,
    0x2B,
    0x2D,
    0x12B,
    127,
    128,
    129,
    255,
    256,
    257,
    1024,
    1025,
    4096,
    4097,
    1 << 31,
    u32::MAX - 1,
    u32::MAX,
];

/// Every damaged copy of a small file: each word in turn set to telling values, each record dropped or doubled with its
/// count changed too, bytes cut off at either end, and bytes put in. Each copy differs from the file.
pub fn damaged(bytes: &[u8]) -> impl Iterator<Item = Vec<u8>> + '_ {
    words(bytes)
        .chain(records(bytes))
        .chain(cuts(bytes))
        .chain(insertions(bytes))
        .filter(move |copy| copy != bytes)
}

/// Where the words stand: behind the text everything is words, so they are counted from the end.
fn word_places(bytes: &[u8]) -> impl Iterator<Item = usize> {
    (bytes.len() % 4..bytes.len()).step_by(4)
}

fn word_at(bytes: &[u8], at: usize) -> u32 {
    bytes[at..at + 4]
        .iter()
        .rev()
        .fold(0, |word, byte| word << 8 | u32::from(*byte))
}

fn with_word(bytes: &[u8], at: usize, word: u32) -> Vec<u8> {
    let mut copy = bytes.to_vec();
    copy[at..at + 4].copy_from_slice(&word.to_le_bytes());
    copy
}

/// The telling values for a word that was `old`, each once.
fn values(old: u32) -> Vec<u32> {
    let mut found = TELLING.to_vec();
    let near = [
        old.wrapping_add(1),
        old.wrapping_sub(1),
        old ^ 0x100,
        old ^ 1 << 31,
    ];
    found.extend(near);
    found.sort_unstable();
    found.dedup();
    found.retain(|value| *value != old);
    found
}

fn words(bytes: &[u8]) -> impl Iterator<Item = Vec<u8>> + '_ {
    let places = word_places(bytes);
    places.flat_map(move |at| {
        let values = values(word_at(bytes, at)).into_iter();
        values.map(move |word| with_word(bytes, at, word))
    })
}

/// The records of a file that opens: the section's number and the record's bytes.
fn record_places(bytes: &[u8]) -> Vec<(usize, Range<usize>)> {
    let Ok(file) = File::open(bytes) else {
        return Vec::new();
    };
    let mut found = Vec::new();
    let mut start = 0;
    for (section, count) in file.counts().into_iter().enumerate() {
        for _ in 0..count {
            let end = start + RECORD_BYTES[section];
            found.push((section, start..end));
            start = end;
        }
    }
    found
}

/// A copy with other bytes for a record, and with another count of its section.
fn with_record(bytes: &[u8], section: usize, place: Range<usize>, times: u32) -> Vec<u8> {
    let mut copy = bytes[..place.start].to_vec();
    for _ in 0..times {
        copy.extend_from_slice(&bytes[place.clone()]);
    }
    copy.extend_from_slice(&bytes[place.end..]);
    let at = copy.len() - TRAILER + section * 4;
    let count = word_at(&copy, at) + times - 1;
    with_word(&copy, at, count)
}

/// Each record dropped or doubled, its section's count changed too, so that the length stays right.
fn records(bytes: &[u8]) -> impl Iterator<Item = Vec<u8>> + '_ {
    let places = record_places(bytes).into_iter();
    places.flat_map(move |(section, place)| {
        [0, 2].map(|times| with_record(bytes, section, place.clone(), times))
    })
}

/// The file without its last or its first bytes.
fn cuts(bytes: &[u8]) -> impl Iterator<Item = Vec<u8>> + '_ {
    (1..=bytes.len()).flat_map(move |count| {
        let kept = bytes.len() - count;
        [bytes[..kept].to_vec(), bytes[count..].to_vec()]
    })
}

/// The file with a byte or a word put in at every word's place and at both ends.
fn insertions(bytes: &[u8]) -> impl Iterator<Item = Vec<u8>> + '_ {
    let places = [0]
        .into_iter()
        .chain(word_places(bytes))
        .chain([bytes.len()]);
    places.flat_map(move |at| {
        [&[0][..], &[1], &[0; 4], &[0xFF; 4]].map(|more| {
            let mut copy = bytes[..at].to_vec();
            copy.extend_from_slice(more);
            copy.extend_from_slice(&bytes[at..]);
            copy
        })
    })
}

/// A copy with one to three random damages.
pub fn randomly(random: &mut Random, bytes: &[u8]) -> Vec<u8> {
    let mut copy = bytes.to_vec();
    for _ in 0..random.weighted(&[(75, 1), (20, 2), (5, 3)]) {
        copy = one(random, &copy);
    }
    copy
}

fn one(random: &mut Random, bytes: &[u8]) -> Vec<u8> {
    let at = random.below(bytes.len() + 1);
    match random.below(20) {
        0 => bytes[..at].to_vec(),
        1 => bytes[at..].to_vec(),
        2 => [&bytes[..at], &[random.bits() as u8], &bytes[at..]].concat(),
        3 | 4 => match random.below(8) {
            0 => with_some_word(random, bytes, bytes.len()),
            _ => with_some_word(random, bytes, TRAILER),
        },
        5..=7 => {
            let places = record_places(bytes);
            if places.is_empty() {
                return bytes.to_vec();
            }
            let (section, place) = random.pick(&places).clone();
            let times = *random.pick(&[0, 2]);
            with_record(bytes, section, place, times)
        }
        _ => with_some_word(random, bytes, bytes.len()),
    }
}

/// A copy with one of its last words changed.
fn with_some_word(random: &mut Random, bytes: &[u8], last: usize) -> Vec<u8> {
    let first = bytes.len().saturating_sub(last);
    let places: Vec<usize> = word_places(bytes).filter(|at| *at >= first).collect();
    if places.is_empty() {
        return bytes.to_vec();
    }
    let at = *random.pick(&places);
    let word = *random.pick(&values(word_at(bytes, at)));
    with_word(bytes, at, word)
}

#[cfg(test)]
mod tests {
    use super::*;
    use treefile::{examples, text};

    fn example(text: &str) -> Vec<u8> {
        text::parse(text)
            .expect("the text form reads")
            .assemble()
            .to_bytes()
    }

    #[test]
    fn every_copy_differs() {
        for example in examples::ALL.map(|e| example(e.text)) {
            let copies = damaged(&example).count();
            assert!(copies > 1000);
            assert!(damaged(&example).all(|copy| copy != example));
        }
    }

    #[test]
    fn copies_meet_every_refusal_of_the_layout_and_pass_too() {
        let file = example(examples::P8);
        let opened: Vec<u32> = damaged(&file)
            .map(|copy| File::open(&copy).err().unwrap_or(0))
            .collect();
        for refusal in [0, 2, 3, 4] {
            assert!(opened.iter().filter(|r| **r == refusal).count() > 30);
        }
    }

    #[test]
    fn very_short_files_can_be_damaged_too() {
        assert_eq!(damaged(&[]).count(), 8);
        assert!(damaged(&[1, 2, 3]).count() > 8);
        let mut random = Random::new(3);
        assert!((0..200).all(|_| randomly(&mut random, &[]).len() <= 3));
    }
}
