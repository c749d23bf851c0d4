//! Other ways to lay out the same file: names in another order, in a shared text, or never used.

use crate::prng::Random;
use crate::vocabulary::{BUILT_INS, ODD};
use treefile::records::{domain, node, stmt, File, Name};

/// Writes the names another way at times; the models stay what they are.
pub fn names(random: &mut Random, file: &mut File) {
    if random.chance(25) {
        add_unused(random, file);
    }
    if random.chance(30) {
        permute(random, file);
    }
    if random.chance(20) {
        share_text(file);
    }
    if random.chance(10) {
        let byte = random.bits() as u8;
        file.text.push(byte);
    }
}

/// Adds a few names that no record uses.
fn add_unused(random: &mut Random, file: &mut File) {
    for _ in 0..random.between(1, 3) {
        let name: Vec<u8> = match random.below(4) {
            0 => b"t".to_vec(),
            1 => random.pick(&ODD).to_vec(),
            2 => random.pick(&BUILT_INS).0.to_vec(),
            _ => vec![random.bits() as u8, random.bits() as u8],
        };
        if file.find_name(&name).is_none() {
            file.names.push(Name {
                start: file.text.len() as u32,
                len: name.len() as u32,
            });
            file.text.extend_from_slice(&name);
        }
    }
}

/// Puts the names in a random order.
fn permute(random: &mut Random, file: &mut File) {
    let mut order: Vec<usize> = (0..file.names.len()).collect();
    random.shuffle(&mut order);
    file.names = order.iter().map(|old| file.names[*old]).collect();
    let mut new = vec![0; order.len()];
    for (number, old) in order.iter().enumerate() {
        new[*old] = number as u32;
    }
    renumber(file, &|old| new[old as usize]);
}

fn renumber(file: &mut File, new: &dyn Fn(u32) -> u32) {
    for n in &mut file.nodes {
        match n.kind {
            node::NAME | node::CALL => n.name = new(n.name),
            node::ARGUMENT if n.name > 0 => n.name = new(n.name - 1) + 1,
            _ => {}
        }
    }
    file.dependents.iter_mut().for_each(|d| *d = new(*d));
    for u in &mut file.unknowns {
        u.name = new(u.name);
        if u.domain == domain::NAMED {
            u.lower = u64::from(new(u.lower as u32));
        }
    }
    for s in &mut file.stmts {
        if s.kind == stmt::RATE {
            s.name = new(s.name);
        }
    }
    file.models.iter_mut().for_each(|m| m.name = new(m.name));
}

/// Lets names overlap in the text: long ones first, each begun in the end of the text or found in it.
fn share_text(file: &mut File) {
    let names: Vec<Vec<u8>> = (0..file.names.len() as u32)
        .map(|n| file.name(n).to_vec())
        .collect();
    let mut order: Vec<usize> = (0..names.len()).collect();
    order.sort_by_key(|n| std::cmp::Reverse(names[*n].len()));
    let mut text: Vec<u8> = Vec::new();
    for n in order {
        let name = &names[n];
        let start = place_in(&text, name);
        let known = (text.len() - start).min(name.len());
        text.extend_from_slice(&name[known..]);
        file.names[n].start = start as u32;
    }
    file.text = text;
}

/// Where a name stands in the text, or as much of its beginning as the text ends with.
fn place_in(text: &[u8], name: &[u8]) -> usize {
    (0..text.len())
        .find(|start| {
            let known = (text.len() - start).min(name.len());
            text[*start..start + known] == name[..known]
        })
        .unwrap_or(text.len())
}
