//! The cases that showed something new, and the next case to try.

use crate::lend::FILE;
use crate::mutate::mutate;
use generate::prng::Random;
use generate::{damage, Case};
use std::collections::HashSet;

/// So many of the newest cases are taken more often than the others.
const NEWEST: usize = 64;
/// A longer file is no longer changed further.
const LONGEST: usize = 60 << 10;

/// Cases, and all features that any case showed.
#[derive(Default)]
pub struct Corpus {
    pub cases: Vec<Case>,
    pub features: HashSet<u64>,
    /// Blocks that were met.
    pub blocks: usize,
}

impl Corpus {
    /// Keeps a case that shows a feature, or has met a block, that no case before it did. Returns whether it is kept.
    pub fn keep(&mut self, case: &Case, features: Vec<u64>, blocks: usize) -> bool {
        let before = self.features.len();
        self.features.extend(features);
        let new = self.features.len() > before || blocks > self.blocks;
        self.blocks = blocks;
        let kept = new && case.bytes.len() <= LONGEST;
        if kept {
            self.cases.push(case.clone());
        }
        kept
    }

    /// The next case: a generated one, a damaged one, or mostly a changed copy of one that was kept.
    pub fn next(&self, random: &mut Random) -> Case {
        match random.below(100) {
            0..=7 => generate::case(random.bits()),
            8..=11 => self.damaged(random),
            _ if self.cases.is_empty() => generate::case(random.bits()),
            _ => {
                let (case, other) = (self.pick(random), self.pick(random));
                mutate(random, case, other)
            }
        }
    }

    fn damaged(&self, random: &mut Random) -> Case {
        let case = generate::case(random.bits());
        let mut bytes = damage::randomly(random, &case.bytes);
        bytes.truncate(FILE);
        let label = "damaged";
        Case {
            bytes,
            label,
            ..case
        }
    }

    fn pick(&self, random: &mut Random) -> &Case {
        let newest = self.cases.len().min(NEWEST);
        let at = match random.chance(30) {
            true => self.cases.len() - newest + random.below(newest),
            false => random.below(self.cases.len()),
        };
        &self.cases[at]
    }
}
