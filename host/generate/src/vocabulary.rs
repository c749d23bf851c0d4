//! The names and numbers that generated models speak of.

use crate::prng::Random;

/// Names that may not be declared; t is not among them.
pub const RESERVED: [&[u8]; 5] = [b"u", b"dudt", b"F", b"G", b"input"];

/// Built-ins with a count of arguments that they take.
pub const BUILT_INS: [(&[u8], usize); 12] = [
    (b"sin", 1),
    (b"cos", 1),
    (b"tan", 1),
    (b"exp", 1),
    (b"log", 1),
    (b"sqrt", 1),
    (b"abs", 1),
    (b"pow", 2),
    (b"interp1d", 3),
    (b"piecewise", 3),
    (b"piecewise", 5),
    (b"piecewise", 7),
];

/// Names of the argument table that are no built-ins, with their counts.
pub const TABLE_ONLY: [(&[u8], usize); 11] = [
    (b"log10", 1),
    (b"sigmoid", 1),
    (b"arcsinh", 1),
    (b"arccosh", 1),
    (b"heaviside", 1),
    (b"tanh", 1),
    (b"sinh", 1),
    (b"cosh", 1),
    (b"copysign", 2),
    (b"min", 2),
    (b"max", 2),
];

/// Names for variables.
pub const PLAIN: [&[u8]; 12] = [
    b"x",
    b"y",
    b"z",
    b"v",
    b"w",
    b"k",
    b"p",
    b"c",
    b"xx",
    b"temperature",
    b"T",
    b"tt",
];

/// Names that look like something else, or are no text.
pub const ODD: [&[u8]; 14] = [
    b"\xff",
    b"\xc3\x28",
    b"\x00",
    b"\xc3\xa9",
    b"\xed\xa0\x80",
    b"\xf0\x9f\x92\xa7",
    b"dot",
    b"NonNegative",
    b"R",
    b"root",
    b"sinx",
    b"si",
    b"input2",
    b"t\x00",
];

/// Names of domains that exist.
pub const DOMAINS: [&[u8]; 2] = [b"NonNegative", b"R"];

/// Names of domains that do not exist.
pub const NO_DOMAINS: [&[u8]; 5] = [b"Positive", b"nonNegative", b"r", b"x", b"NonNegativ"];

/// Floats worth trying.
const FLOATS: [f64; 11] = [
    0.0,
    1.0,
    2.0,
    0.5,
    -1.0,
    -0.0,
    1e300,
    5e-324,
    f64::INFINITY,
    f64::NEG_INFINITY,
    10.0,
];

/// Bits of NaNs: quiet, signalling, negative, with all bits set.
const NANS: [u64; 4] = [
    0x7FF8_0000_0000_0000,
    0x7FF0_0000_0000_0001,
    0xFFF8_0000_0000_1234,
    u64::MAX,
];

/// The bits of a number; a plain one mostly.
pub fn bits(random: &mut Random) -> u64 {
    match random.below(100) {
        0..=69 => f64::to_bits(random.below(10) as f64),
        70..=89 => random.pick(&FLOATS).to_bits(),
        90..=95 => *random.pick(&NANS),
        96..=97 => f64::to_bits(random.bits() as f64 / 1e3),
        _ => random.bits(),
    }
}

/// The bits of a number that is worth trying.
pub fn special_bits(random: &mut Random) -> u64 {
    if random.chance(70) {
        random.pick(&FLOATS).to_bits()
    } else {
        *random.pick(&NANS)
    }
}

/// A word of a submodel's own: none of the other lists has it.
pub fn fresh(random: &mut Random, taken: &[Vec<u8>]) -> Vec<u8> {
    let mut word = vec![b'a' + random.below(10) as u8];
    while taken.contains(&word) {
        word.push(b'a' + random.below(26) as u8);
    }
    word
}
