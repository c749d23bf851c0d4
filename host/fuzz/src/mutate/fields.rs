//! Changes of single fields that keep the layout: the file still opens, the build goes another way.

use generate::prng::Random;
use generate::vocabulary;
use treefile::records::{domain, node, stmt};
use treefile::{File, Span};

/// A file that opens, with one to three fields changed.
pub fn change(random: &mut Random, bytes: &[u8]) -> Option<Vec<u8>> {
    let mut file = File::open(bytes).ok()?;
    for _ in 0..random.between(1, 3) {
        one(random, &mut file);
    }
    Some(file.to_bytes())
}

fn one(random: &mut Random, file: &mut File) {
    let names = file.names.len();
    let name = random.below(names) as u32;
    match random.below(12) {
        0..=4 if !file.nodes.is_empty() => in_node(random, file, name),
        5 if !file.dependents.is_empty() => {
            let at = random.below(file.dependents.len());
            file.dependents[at] = name;
        }
        6 | 7 if !file.unknowns.is_empty() => in_unknown(random, file, name),
        8 | 9 if !file.stmts.is_empty() => in_stmt(random, file, name),
        10 if !file.models.is_empty() => {
            let at = random.below(file.models.len());
            match random.below(3) {
                0 => file.models[at].span = span(random),
                _ => file.models[at].name = name,
            }
        }
        11 if !file.text.is_empty() => {
            let at = random.below(file.text.len());
            file.text[at] = *random.pick(b"xytuFGR0_\xFF");
        }
        _ => (),
    }
}

fn in_node(random: &mut Random, file: &mut File, name: u32) {
    let at = random.below(file.nodes.len());
    let n = &mut file.nodes[at];
    if random.chance(15) {
        n.span = span(random);
        return;
    }
    match n.kind {
        node::NAME if random.chance(25) => {
            n.kind = node::NUMBER;
            n.name = 0;
            n.number = vocabulary::bits(random);
        }
        node::NAME | node::CALL => n.name = name,
        node::NUMBER if random.chance(25) => {
            n.kind = node::NAME;
            n.name = name;
            n.number = 0;
        }
        node::NUMBER => n.number = vocabulary::bits(random),
        node::BINARY => n.op = u32::from(*random.pick(b"+-*/")),
        node::UNARY => n.op = u32::from(*random.pick(b"+-")),
        _ => n.name = *random.pick(&[0, name + 1]),
    }
}

fn in_unknown(random: &mut Random, file: &mut File, name: u32) {
    let at = random.below(file.unknowns.len());
    let u = &mut file.unknowns[at];
    match random.below(6) {
        0 | 1 => u.name = name,
        2 => u.span = span(random),
        3 => (u.domain, u.lower, u.upper) = (domain::NONE, 0, 0),
        4 => (u.domain, u.lower, u.upper) = (domain::NAMED, u64::from(name), 0),
        _ => {
            u.domain = domain::RANGE;
            (u.lower, u.upper) = (vocabulary::bits(random), vocabulary::bits(random));
        }
    }
}

fn in_stmt(random: &mut Random, file: &mut File, name: u32) {
    let at = random.below(file.stmts.len());
    let s = &mut file.stmts[at];
    let call = file.nodes[s.right as usize].kind == node::CALL;
    match (s.kind, random.below(4)) {
        (_, 0) => s.span = span(random),
        (stmt::RATE, 1) if call => (s.kind, s.name) = (stmt::SUBMODEL, 0),
        (stmt::RATE, _) => s.name = name,
        (stmt::SUBMODEL, 1) => (s.kind, s.name) = (stmt::RATE, name),
        _ => (),
    }
}

/// A span that is missing, short, or at the ends of what a word holds.
fn span(random: &mut Random) -> Span {
    let start = random.bits() as u32;
    match random.below(4) {
        0 => Span::MISSING,
        1 => Span {
            start: 0,
            end: u32::MAX,
        },
        2 => Span { start, end: start },
        _ => {
            let end = start.saturating_add(random.below(100) as u32);
            Span { start, end }
        }
    }
}
