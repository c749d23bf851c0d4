//! The ways in which a random case comes about.

use crate::models::{right_model, Size, SIZES};
use crate::prng::Random;
use crate::{blowups, damage, dress, faults, limits, rewrite, submodels, wild, Case};
use treefile::source::{Model, Source};

/// A way to make a case, of a size where it has one.
pub type Recipe = fn(&mut Random, Size) -> Case;

/// Every recipe with its weight.
pub const ALL: [(usize, Recipe); 9] = [
    (31, right),
    (37, faulty),
    (13, wildly),
    (3, deep),
    (4, blown_up),
    (1, flooded),
    (1, near_limits),
    (7, damaged),
    (3, wrong_root),
];

/// The recipes whose files are small.
pub const SMALL: [(usize, Recipe); 5] = [
    (38, right),
    (34, faulty),
    (15, wildly),
    (10, damaged),
    (3, wrong_root),
];

/// A size, small mostly.
pub fn size(random: &mut Random) -> Size {
    let at = random.weighted(&[(35, 0), (40, 1), (19, 2), (6, 3)]);
    SIZES[at]
}

/// A file of these models in another dress.
fn finish(random: &mut Random, models: Vec<Model>, root: &[u8], label: &'static str) -> Case {
    let mut source = Source { models };
    let mut root = root.to_vec();
    if random.chance(12) {
        dress::rename(random, &mut source, &mut root);
    }
    dress::places(random, &mut source);
    let mut file = source.assemble();
    rewrite::names(random, &mut file);
    Case {
        bytes: file.to_bytes(),
        root,
        label,
    }
}

/// Models that build without an error, the root anywhere among them; answers the root's number too.
fn right_models(random: &mut Random, size: Size) -> (Vec<Model>, usize) {
    let mut models = vec![right_model(random, b"root", size)];
    for _ in 0..random.weighted(&[(55, 0), (27, 1), (12, 2), (4, 3), (2, 5)]) {
        let from = random.below(models.len());
        submodels::outline(random, &mut models, from);
    }
    if random.chance(6) {
        let other = right_model(random, b"other", SIZES[0]);
        models.push(other);
    }
    random.shuffle(&mut models);
    let root = models.iter().position(|m| m.name == b"root").unwrap_or(0);
    (models, root)
}

fn right(random: &mut Random, size: Size) -> Case {
    let (models, _) = right_models(random, size);
    finish(random, models, b"root", "right")
}

fn faulty(random: &mut Random, size: Size) -> Case {
    let (mut models, root) = right_models(random, size);
    let count = random.weighted(&[(45, 1), (30, 2), (15, 3), (10, 5)]);
    faults::put(random, &mut models, root, count);
    finish(random, models, b"root", "faulty")
}

fn wildly(random: &mut Random, _: Size) -> Case {
    let mut models = wild::models(random);
    if random.chance(30) {
        random.shuffle(&mut models);
    }
    finish(random, models, b"root", "wild")
}

/// A nest of submodels up to 32 models deep.
fn deep(random: &mut Random, _: Size) -> Case {
    let mut models = vec![right_model(random, b"root", SIZES[0])];
    let deep = random.between(4, 31);
    submodels::nest(random, &mut models, deep);
    if random.chance(30) {
        faults::put(random, &mut models, 0, 1);
    }
    random.shuffle(&mut models);
    finish(random, models, b"root", "deep")
}

fn blown_up(random: &mut Random, _: Size) -> Case {
    let models = blowups::any(random);
    finish(random, models, b"root", "blown up")
}

/// Errors around the 256 that are listed, or far over.
fn flooded(random: &mut Random, _: Size) -> Case {
    let models = if random.chance(50) {
        blowups::errors(random.between(250, 262))
    } else {
        blowups::repeated_errors(random)
    };
    finish(random, models, b"root", "flooded")
}

fn near_limits(random: &mut Random, _: Size) -> Case {
    let models = limits::any(random).models;
    finish(random, models, b"root", "near limits")
}

/// A damaged copy of another case.
fn damaged(random: &mut Random, size: Size) -> Case {
    let whole = if random.chance(50) {
        right(random, size)
    } else {
        faulty(random, size)
    };
    Case {
        bytes: damage::randomly(random, &whole.bytes),
        root: whole.root,
        label: "damaged",
    }
}

/// A root name that no model has, or another model's.
fn wrong_root(random: &mut Random, size: Size) -> Case {
    let (models, _) = right_models(random, size);
    let other = random.pick(&models).name.clone();
    let root: Vec<u8> = match random.below(6) {
        0 => Vec::new(),
        1 => b"roo".to_vec(),
        2 => b"root2".to_vec(),
        3 => b"\xff".to_vec(),
        4 => b"x".to_vec(),
        _ => other,
    };
    finish(random, models, &root, "wrong root")
}
