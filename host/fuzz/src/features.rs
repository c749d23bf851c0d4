//! What an answer shows, as numbers; the answer is one whose shape was checked. A case that shows a number for the first
//! time is worth keeping.

use area::Sections;
use generate::Case;
use treefile::records::TRAILER;

/// Groups of features, so that numbers of different meaning differ.
#[derive(Clone, Copy)]
enum Group {
    Refused = 1,
    Count,
    Error,
    ErrorPair,
    Fate,
    Variable,
    Statement,
    Together,
}

fn feature(group: Group, parts: [u32; 4]) -> u64 {
    let mut hash = group as u64;
    for part in parts {
        hash = (hash ^ u64::from(part)).wrapping_mul(0x0000_0100_0000_01B3) ^ hash >> 29;
    }
    hash
}

/// The power of two that a count is below; 0 for none.
fn power(count: usize) -> u32 {
    usize::BITS - count.leading_zeros()
}

/// What a refusal shows: its number with the trailer's counts by powers of two.
pub fn of_refusal(case: &Case, number: u32) -> Vec<u64> {
    let mut found = vec![feature(Group::Refused, [number, 0, 0, 0])];
    let trailer = case.bytes.len().saturating_sub(TRAILER);
    for (i, word) in case.bytes[trailer..].chunks_exact(4).enumerate() {
        let count = u32::from_le_bytes([word[0], word[1], word[2], word[3]]);
        found.push(feature(
            Group::Refused,
            [number, i as u32 + 1, power(count as usize), 0],
        ));
    }
    found
}

/// What an answer shows: counts by powers of two, errors and fates, and the forms of variables and of statements.
pub fn of_answer(answer: &Sections) -> Vec<u64> {
    let mut found = Vec::new();
    for (i, count) in answer.counts().into_iter().enumerate() {
        found.push(feature(Group::Count, [i as u32, power(count), 0, 0]));
    }
    errors_and_fates(answer, &mut found);
    found.extend(answer.variables().map(variable));
    let nodes: Vec<&[u32]> = answer.nodes().collect();
    found.extend(answer.stmts().map(|s| statement(&nodes, s)));
    found
}

/// Each kind of error and each fate by how many there are, kinds in pairs, and which fates come with how many kinds.
fn errors_and_fates(answer: &Sections, found: &mut Vec<u64>) {
    let mut kinds = [0; 18];
    answer.errors().for_each(|e| kinds[e[0] as usize] += 1);
    let mut fates = [0; 5];
    answer.stmts().for_each(|s| fates[s[6] as usize] += 1);
    let present = |counts: &[usize]| (0..counts.len()).filter(|i| counts[*i] > 0).collect();
    let (errors, ends): (Vec<usize>, Vec<usize>) = (present(&kinds), present(&fates));
    for kind in &errors {
        let count = power(kinds[*kind]);
        found.push(feature(Group::Error, [*kind as u32, count, 0, 0]));
        for other in &errors {
            let pair = [*kind as u32, *other as u32, 0, 0];
            found.push(feature(Group::ErrorPair, pair));
        }
    }
    for fate in &ends {
        let count = power(fates[*fate]);
        found.push(feature(Group::Fate, [*fate as u32, count, 0, 0]));
    }
    let mask = ends.iter().fold(0, |mask, fate| mask | 1 << fate);
    let listed = power(answer.errors().len());
    let together = [mask, errors.len() as u32, listed, 0];
    found.push(feature(Group::Together, together));
}

/// Which fields of a variable are set, and its time index, dependents and initial conditions by powers of two.
fn variable(v: &[u32]) -> u64 {
    let set = v[1] | v[7] << 1 | u32::from(v[5] > 0) << 2 | u32::from(v[0] > 0) << 3;
    let [index, count, conditions] = [v[2], v[4], v[6]].map(|field| power(field as usize));
    feature(Group::Variable, [set, index, count, conditions])
}

/// A statement's kind and fate, and the kind and size of each tree's top.
fn statement(nodes: &[&[u32]], s: &[u32]) -> u64 {
    let top = |at: u32| nodes[at as usize][0] << 8 | power(nodes[at as usize][3] as usize);
    let left = if s[0] == 1 { top(s[2]) } else { 0 };
    feature(Group::Statement, [s[0], s[6], left, top(s[3])])
}
