//! Seeded random tree files with every feature and every fault that the description speaks of, and hand-made ones.
//!
//! Most random models are made right and then, often, given faults: states with rate equations and initial conditions or
//! with equations, statements moved into submodels without changing what they flatten to, then one fault or a few. Others
//! have anything anywhere, blow up when flattened, stand near a most, or are damaged byte by byte.

pub mod blowups;
pub mod damage;
pub mod dress;
pub mod expressions;
pub mod faults;
mod fixed;
pub mod limits;
pub mod make;
pub mod models;
pub mod prng;
mod recipes;
pub mod rewrite;
pub mod scope;
pub mod submodels;
#[cfg(test)]
mod tests;
pub mod vocabulary;
pub mod walk;
pub mod wild;

pub use damage::damaged;
pub use fixed::fixed;

use prng::Random;

/// A tree file and a root name.
#[derive(Clone, Debug, PartialEq, Eq)]
pub struct Case {
    /// The file.
    pub bytes: Vec<u8>,
    /// The root name's bytes, which may be no text.
    pub root: Vec<u8>,
    /// How the case came about.
    pub label: &'static str,
}

/// The random case that belongs to a seed.
pub fn case(seed: u64) -> Case {
    let mut random = Random::new(seed);
    let recipe = random.weighted(&recipes::ALL);
    let size = recipes::size(&mut random);
    recipe(&mut random, size)
}

/// How often a small case is tried for before a trailer alone is answered.
const TRIES: usize = 400;

/// The random case that belongs to a seed, its file at most so many bytes long.
pub fn small_case(seed: u64, most_bytes: usize) -> Case {
    let mut random = Random::new(seed);
    for _ in 0..TRIES {
        let recipe = random.weighted(&recipes::SMALL);
        let size = models::SIZES[random.below(2)];
        let case = recipe(&mut random, size);
        if case.bytes.len() <= most_bytes {
            return case;
        }
    }
    let mut bytes = treefile::File::default().to_bytes();
    bytes.truncate(most_bytes);
    Case {
        bytes,
        root: b"root".to_vec(),
        label: "trailer",
    }
}
