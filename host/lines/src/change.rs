//! Areas changed at random, by words and by bytes.

use generate::prng::Random;

/// Values that rules ask for or stop at.
pub(crate) const VALUES: [u32; 26] = [
    0,
    1,
    2,
    3,
    4,
    5,
    6,
    7,
    16,
    17,
    18,
    42,
    43,
    45,
    128,
    129,
    130,
    255,
    256,
    257,
    1023,
    1024,
    1025,
    1 << 31,
    u32::MAX - 1,
    u32::MAX,
];

/// The area with something else in it: mostly one word or two, or its end.
pub fn changed(random: &mut Random, area: &[u8]) -> Vec<u8> {
    let mut area = area.to_vec();
    match random.below(20) {
        0 => area.truncate(random.below(area.len() + 1)),
        1 => area.resize(area.len() + random.between(1, 90), 0),
        2 => area.push(1),
        3 => grow(random, &mut area),
        4 => swap(random, &mut area),
        5 => no_variables(&mut area),
        _ => {
            for _ in 0..random.weighted(&[(12, 1), (5, 2), (2, 3), (1, 6)]) {
                one_word(random, &mut area);
            }
        }
    }
    area
}

/// Zeros and a byte among them that is none.
fn grow(random: &mut Random, area: &mut Vec<u8>) {
    let from = area.len();
    area.resize(from + random.between(1, 90), 0);
    let at = random.between(from, area.len() - 1);
    area[at] = 1 << random.below(8);
}

/// No variables and no dependents, and every statement left over.
fn no_variables(area: &mut Vec<u8>) {
    let [nodes, statements, variables, dependents] = [0, 4, 8, 12].map(|at| word(area, at));
    let stmts_at = 40 + 32 * nodes as usize;
    let vars_at = stmts_at + 32 * statements as usize;
    let errors_at = vars_at + 48 * variables as usize + 4 * dependents as usize;
    for record in (stmts_at..vars_at).step_by(32) {
        put(area, record + 24, 4);
        put(area, record + 28, 0);
    }
    area.drain(vars_at..errors_at);
    put(area, 8, 0);
    put(area, 12, 0);
}

/// The place of a word, more often than others one of the header.
fn any_word(random: &mut Random, area: &[u8]) -> Option<usize> {
    let words = area.len() / 4;
    let most = if random.chance(10) { 10 } else { words };
    (words > 0).then(|| 4 * random.below(most.min(words)))
}

pub(crate) fn word(area: &[u8], at: usize) -> u32 {
    u32::from_le_bytes(area[at..at + 4].try_into().expect("four bytes"))
}

pub(crate) fn put(area: &mut [u8], at: usize, word: u32) {
    area[at..at + 4].copy_from_slice(&word.to_le_bytes());
}

/// Another value in a word: near the old one, one of those that rules ask for, or that of another word.
fn one_word(random: &mut Random, area: &mut [u8]) {
    let Some(at) = any_word(random, area) else {
        return;
    };
    let old = word(area, at);
    let new = match random.below(10) {
        0..=2 => old.wrapping_add(1),
        3..=4 => old.wrapping_sub(1),
        5..=7 => *random.pick(&VALUES),
        8 => random.bits() as u32,
        _ => any_word(random, area).map_or(0, |other| word(area, other)),
    };
    put(area, at, new);
}

/// Two words in each other's place.
fn swap(random: &mut Random, area: &mut [u8]) {
    let places = (any_word(random, area), any_word(random, area));
    if let (Some(a), Some(b)) = places {
        let (x, y) = (word(area, a), word(area, b));
        put(area, a, y);
        put(area, b, x);
    }
}
