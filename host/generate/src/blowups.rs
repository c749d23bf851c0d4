//! Models that are small in the file and large when flattened: instances, statements, nodes and errors around their
//! mosts, and doublings far beyond.

use crate::make;
use crate::prng::Random;
use treefile::source::{Domain, Model, Stmt};

/// The name of the model at a depth below the root.
fn level_name(level: usize) -> Vec<u8> {
    format!("L{level}").into_bytes()
}

/// A root with one state, whose statements are these; no error is in them.
fn root(stmts: Vec<Stmt>) -> Model {
    let x = make::unknown(b"x", &[b"t"], Domain::None);
    make::model(b"root", vec![x], stmts)
}

fn condition() -> Stmt {
    let left = make::call(b"x", vec![make::arg(make::number(0.0))]);
    make::equation(left, make::number(1.0))
}

/// What each instance of a model adds: its own statement, and calls of the model below it.
struct Ladder {
    models: Vec<Model>,
    /// The measure of each model, instances or statements.
    measures: Vec<usize>,
}

/// Models that each call the one below so many times, until their measure is over a limit. `own` statements stand in
/// each; what is measured is `base` for each model and all that it calls.
fn ladder(random: &mut Random, own: &[Stmt], base: usize, limit: usize) -> Ladder {
    let mut ladder = Ladder {
        models: Vec::new(),
        measures: Vec::new(),
    };
    let mut measure = 0;
    while measure < limit && ladder.models.len() < 30 {
        let level = ladder.models.len();
        let calls = if level == 0 { 0 } else { random.between(1, 4) };
        let mut stmts = own.to_vec();
        for _ in 0..calls {
            stmts.push(make::submodel(&level_name(level - 1), Vec::new()));
        }
        measure = base + calls * measure;
        let x = make::unknown(b"x", &[b"t"], Domain::None);
        ladder
            .models
            .push(make::model(&level_name(level), vec![x], stmts));
        ladder.measures.push(measure);
    }
    ladder
}

/// Calls that together measure exactly so much, as far as the measures allow.
fn calls_for(ladder: &Ladder, mut wanted: usize) -> Vec<Stmt> {
    let mut stmts = Vec::new();
    for (level, measure) in ladder.measures.iter().enumerate().rev() {
        while *measure > 0 && *measure <= wanted && stmts.len() < 200 {
            wanted -= measure;
            stmts.push(make::submodel(&level_name(level), Vec::new()));
        }
    }
    stmts
}

/// Models with exactly so many instances, the root's included.
pub fn instances(random: &mut Random, wanted: usize) -> Vec<Model> {
    let ladder = ladder(random, &[], 1, wanted / 2);
    let mut stmts = calls_for(&ladder, wanted - 1);
    stmts.push(make::rate(b"x", make::number(1.0)));
    stmts.push(condition());
    let mut models = vec![root(stmts)];
    models.extend(ladder.models);
    models
}

/// Models with exactly so many flattened statements, 2 or more.
pub fn statements(random: &mut Random, wanted: usize) -> Vec<Model> {
    let own = [make::rate(b"x", make::name(b"x"))];
    let ladder = ladder(random, &own, 1, wanted / 2);
    let mut stmts = calls_for(&ladder, wanted - 2);
    stmts.push(make::rate(b"x", make::number(1.0)));
    stmts.push(condition());
    let mut models = vec![root(stmts)];
    models.extend(ladder.models);
    models
}

/// Models with exactly so many flattened nodes, 300 or more, in far fewer statements.
pub fn nodes(random: &mut Random, wanted: usize) -> Vec<Model> {
    let size = random.between(20, 60);
    let own = [make::rate(b"x", make::chain(make::name(b"x"), size))];
    let ladder = ladder(random, &own, 1, (wanted / size) / 2);
    let calls = (wanted - 5) / size;
    let mut stmts = calls_for(&ladder, calls);
    let rest = wanted - 4 - calls * size;
    stmts.push(make::rate(b"x", make::chain(make::name(b"x"), rest)));
    stmts.push(condition());
    let mut models = vec![root(stmts)];
    models.extend(ladder.models);
    models
}

/// So many nested models, each with two or more submodel statements of the next: instances double at every level.
pub fn doubling_calls(levels: usize, calls: usize) -> Vec<Model> {
    let mut models = vec![root(vec![
        make::submodel(&level_name(0), Vec::new()),
        make::rate(b"x", make::number(1.0)),
        condition(),
    ])];
    for level in 0..levels {
        let calls = if level + 1 < levels { calls } else { 0 };
        let below = level_name(level + 1);
        let stmts = (0..calls).map(|_| make::submodel(&below, Vec::new()));
        models.push(make::model(&level_name(level), Vec::new(), stmts.collect()));
    }
    models
}

/// So many nested models, each passing its argument on twice in a sum. The last uses it or not; where it does, its
/// flattened right side has 2^levels - 1 nodes.
pub fn doubling_arguments(levels: usize, used: bool) -> Vec<Model> {
    let s = || make::name(b"s");
    let mut models = vec![root(vec![
        make::submodel(&level_name(0), vec![make::arg(make::name(b"x"))]),
        condition(),
    ])];
    for level in 0..levels {
        let stmt = if level + 1 < levels {
            let sum = make::binary(b'+', s(), s());
            make::submodel(&level_name(level + 1), vec![make::arg(sum)])
        } else if used {
            make::rate(b"x", s())
        } else {
            make::rate(b"x", make::number(1.0))
        };
        let unknowns = vec![
            make::unknown(b"s", &[], Domain::None),
            make::unknown(b"x", &[b"t"], Domain::None),
        ];
        models.push(make::model(&level_name(level), unknowns, vec![stmt]));
    }
    models
}

/// A chain of so many models, the root included, each calling the next and passing its argument on; the last gives the
/// initial condition.
pub fn deep_chain(models: usize) -> Vec<Model> {
    let mut made: Vec<Model> = (0..models)
        .map(|level| {
            let start = if level == 0 {
                make::number(0.0)
            } else {
                make::name(b"s")
            };
            let args = vec![make::arg(start)];
            let stmt = if level + 1 == models {
                make::equation(make::call(b"x", args), make::number(1.0))
            } else {
                make::submodel(&level_name(level + 1), args)
            };
            let s = make::unknown(b"s", &[], Domain::None);
            let x = make::unknown(b"x", &[b"t"], Domain::None);
            make::model(&level_name(level), vec![s, x], vec![stmt])
        })
        .collect();
    made[0].name = b"root".to_vec();
    made[0].stmts.push(make::rate(b"x", make::name(b"x")));
    made
}

/// One model with exactly so many errors, each a name that is not found: 250 or more.
pub fn errors(wanted: usize) -> Vec<Model> {
    let nowhere = || make::name(b"nowhere");
    let mut stmts: Vec<Stmt> = (0..200).map(|_| make::rate(b"x", nowhere())).collect();
    let sum = (201..wanted).fold(nowhere(), |sum, _| make::binary(b'+', sum, nowhere()));
    stmts.push(make::rate(b"x", sum));
    stmts.push(condition());
    vec![root(stmts)]
}

/// A submodel with a few errors in many instances: the errors repeat.
pub fn repeated_errors(random: &mut Random) -> Vec<Model> {
    let wrong = [
        make::rate(b"x", make::name(b"nowhere")),
        make::submodel(b"Missing", Vec::new()),
    ];
    let wanted = random.between(60, 400);
    let first = random.below(2);
    let ladder = ladder(random, &wrong[first..], 1, wanted / 2);
    let mut stmts = calls_for(&ladder, wanted);
    stmts.push(make::rate(b"x", make::number(1.0)));
    stmts.push(condition());
    let mut models = vec![root(stmts)];
    models.extend(ladder.models);
    models
}

/// One of these, near its most mostly.
pub fn any(random: &mut Random) -> Vec<Model> {
    let near = |random: &mut Random, most: usize| match random.below(4) {
        0 => random.between(most / 2, most * 2),
        _ => random.between(most - 2, most + 2),
    };
    match random.below(9) {
        0 | 1 => {
            let wanted = near(random, 1024);
            instances(random, wanted)
        }
        2 | 3 => {
            let wanted = near(random, 256);
            statements(random, wanted)
        }
        4 | 5 => {
            let wanted = near(random, 1024);
            nodes(random, wanted)
        }
        6 => doubling_calls(random.between(2, 31), random.between(2, 4)),
        7 => doubling_arguments(random.between(2, 31), random.chance(60)),
        _ => deep_chain(random.between(2, 32)),
    }
}
