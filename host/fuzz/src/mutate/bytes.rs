//! Changes of any bytes: flips, words, and the length.

use crate::lend::FILE;
use generate::prng::Random;
use treefile::records::{MOSTS, TRAILER};

/// One to eight bits flipped, or a byte set.
pub fn flip(random: &mut Random, bytes: &[u8]) -> Vec<u8> {
    let mut copy = bytes.to_vec();
    if copy.is_empty() {
        return copy;
    }
    for _ in 0..random.between(1, 8) {
        let at = random.below(copy.len());
        match random.below(4) {
            0 => copy[at] = random.bits() as u8,
            _ => copy[at] ^= 1 << random.below(8),
        }
    }
    copy
}

/// A word set to 0, 1, the greatest, a most, a neighbour of itself, or to another word of the file. Words are counted from
/// the end, where the trailer is.
pub fn word(random: &mut Random, bytes: &[u8]) -> Vec<u8> {
    let mut copy = bytes.to_vec();
    let words = copy.len() / 4;
    if words == 0 {
        return copy;
    }
    let (at, from) = (place(random, &copy), place(random, &copy));
    let old = get(&copy, at);
    let new = match random.below(10) {
        0 => 0,
        1 => 1,
        2 => u32::MAX,
        3 => old.wrapping_add(1),
        4 => old.wrapping_sub(1),
        5 => *random.pick(&MOSTS) + random.below(2) as u32,
        6 => old ^ 1 << random.below(32),
        7 => old.wrapping_mul(2),
        8 => random.bits() as u32,
        _ => get(&copy, from),
    };
    copy[at..at + 4].copy_from_slice(&new.to_le_bytes());
    copy
}

/// Where a word stands; one in ten times one of the trailer.
fn place(random: &mut Random, bytes: &[u8]) -> usize {
    let words = match random.below(10) {
        0 => (bytes.len() / 4).min(TRAILER / 4),
        _ => bytes.len() / 4,
    };
    bytes.len() - 4 - 4 * random.below(words)
}

fn get(bytes: &[u8], at: usize) -> u32 {
    u32::from_le_bytes([0, 1, 2, 3].map(|i| bytes[at + i]))
}

/// Bytes cut off at either end or out of the middle, or put in anywhere.
pub fn length(random: &mut Random, bytes: &[u8]) -> Vec<u8> {
    let at = random.below(bytes.len() + 1);
    let count = match random.below(4) {
        0 => random.below(bytes.len() + 1),
        _ => random.between(1, 40),
    };
    let end = bytes.len().min(at + count);
    match random.below(6) {
        0 => bytes[..at].to_vec(),
        1 => bytes[at..].to_vec(),
        2 => [&bytes[..at], &bytes[end..]].concat(),
        3 => [&bytes[..end], &bytes[at..]].concat(),
        4 => [bytes, &vec![random.bits() as u8; random.below(FILE)]].concat(),
        _ => [
            &bytes[..at],
            &vec![random.bits() as u8; count],
            &bytes[at..],
        ]
        .concat(),
    }
}
