//! Models of a wanted size, made for measuring.

use generate::make;
use treefile::source::{Domain, Expr, Source, Stmt, Unknown};
use treefile::{examples, text};

/// The first worked example: one state with its rate equation and its initial condition.
pub fn smallest() -> Source {
    text::parse(examples::P1).expect("the example reads")
}

fn numbered(letter: &str, i: usize) -> Vec<u8> {
    format!("{letter}{i}").into_bytes()
}

fn state(name: &[u8]) -> Unknown {
    make::unknown(name, &[b"t"], Domain::None)
}

fn start(name: &[u8]) -> Stmt {
    let left = make::call(name, vec![make::arg(make::number(0.0))]);
    make::equation(left, make::number(1.0))
}

fn root(unknowns: Vec<Unknown>, stmts: Vec<Stmt>) -> Source {
    Source {
        models: vec![make::model(b"root", unknowns, stmts)],
    }
}

/// So many statements, an even number: states in a ring, each with a rate equation of four nodes and an initial condition.
pub fn ring(stmts: usize) -> Source {
    let names: Vec<Vec<u8>> = (0..stmts / 2).map(|i| numbered("x", i)).collect();
    let mut made = Vec::new();
    for (i, name) in names.iter().enumerate() {
        let next = &names[(i + 1) % names.len()];
        let right = make::binary(b'*', make::unary(b'-', make::name(name)), make::name(next));
        made.push(make::rate(name, right));
        made.push(start(name));
    }
    root(names.iter().map(|name| state(name)).collect(), made)
}

/// A hundred statements of several kinds: 36 layers that pass heat on to the next, each with its rate equation and its
/// initial condition, and 28 states that equations hold, with calls of functions and of variables in them.
pub fn hundred() -> Source {
    const LAYERS: usize = 36;
    const FLOWS: usize = 28;
    let layer = |i: usize| numbered("layer", i % LAYERS);
    let flow = |i: usize| numbered("flow", i % FLOWS);
    let of_time = |name: &[u8]| make::call(name, vec![make::arg(make::name(b"t"))]);
    let mut unknowns = vec![
        make::unknown(b"k", &[], Domain::Named(b"NonNegative".to_vec())),
        make::unknown(b"c", &[], Domain::Range(0, 1.0f64.to_bits())),
    ];
    let mut stmts = Vec::new();
    for i in 0..LAYERS {
        let passed = make::binary(b'-', make::name(&layer(i + 1)), make::name(&layer(i)));
        let warmed = make::binary(b'*', make::name(b"k"), passed);
        let right = make::binary(b'+', warmed, make::name(&flow(i)));
        unknowns.push(state(&layer(i)));
        stmts.push(make::rate(&layer(i), right));
        stmts.push(start(&layer(i)));
    }
    for i in 0..FLOWS {
        let grown = make::call(b"exp", vec![make::arg(make::name(b"c"))]);
        let right = make::binary(b'/', of_time(&layer(i)), grown);
        unknowns.push(state(&flow(i)));
        stmts.push(make::equation(make::name(&flow(i)), right));
    }
    root(unknowns, stmts)
}

/// A chain of so many models, the root included; at its end a rate equation whose right side is this.
pub fn below(models: usize, right: Expr) -> Source {
    let mut models = generate::blowups::deep_chain(models);
    if let Some(last) = models.last_mut() {
        last.stmts.push(make::rate(b"x", right));
    }
    Source { models }
}

#[cfg(test)]
mod tests {
    use super::*;
    use treefile::File;

    #[test]
    fn models_have_the_wanted_size_and_stay_within_the_mosts() {
        let signs = make::chain(make::name(b"x"), 926);
        let made = [
            (smallest(), 2),
            (ring(16), 16),
            (ring(256), 256),
            (hundred(), 100),
            (below(32, signs), 34),
        ];
        for (source, stmts) in made {
            let file = File::open(&source.assemble().to_bytes());
            assert_eq!(file.map(|file| file.stmts.len()), Ok(stmts));
        }
    }
}
