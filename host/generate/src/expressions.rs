//! Random expressions that a model's check finds nothing wrong with.

use crate::make;
use crate::prng::Random;
use crate::scope::{Scope, Var};
use crate::vocabulary::{self, BUILT_INS};
use treefile::source::{Arg, Expr};

/// The binary operators.
pub const BINARY: [u8; 4] = *b"+-*/";

/// An expression at most so deep over the variables of a scope.
pub fn expr(random: &mut Random, scope: &Scope, depth: usize) -> Expr {
    if depth == 0 || random.chance(30) {
        return leaf(random, scope);
    }
    match random.below(10) {
        0..=3 => make::binary(
            *random.pick(&BINARY),
            expr(random, scope, depth - 1),
            expr(random, scope, depth - 1),
        ),
        4 | 5 => make::unary(*random.pick(b"+-"), expr(random, scope, depth - 1)),
        6 | 7 => built_in(random, scope, depth - 1),
        _ => {
            let var = random.pick(&scope.vars).clone();
            if var.is_callable() && !var.is_built_in() {
                var_call(random, scope, &var, depth - 1)
            } else {
                make::name(&var.name)
            }
        }
    }
}

/// A variable's name or a number.
pub fn leaf(random: &mut Random, scope: &Scope) -> Expr {
    if random.chance(65) {
        make::name(&random.pick(&scope.vars).name)
    } else {
        make::bits(vocabulary::bits(random))
    }
}

/// A call of a built-in with a right count and no keyword.
fn built_in(random: &mut Random, scope: &Scope, depth: usize) -> Expr {
    let (name, count) = *random.pick(&BUILT_INS[..]);
    let count = if depth == 0 && count > 3 { 3 } else { count };
    let args = (0..count).map(|_| make::arg(expr(random, scope, depth)));
    make::call(name, args.collect())
}

/// A call of a variable with an argument for each kept dependent.
pub fn var_call(random: &mut Random, scope: &Scope, var: &Var, depth: usize) -> Expr {
    let args = (0..var.kept.len()).map(|_| make::arg(expr(random, scope, depth)));
    let mut args = args.collect::<Vec<_>>();
    add_keywords(random, var, &mut args);
    make::call(&var.name, args)
}

/// An initial condition's left side: a number equal to time's lower bound in time's place.
pub fn condition(random: &mut Random, scope: &Scope, var: &Var, depth: usize) -> Expr {
    let at = var.time_index();
    let mut args = Vec::new();
    for place in 0..var.kept.len() {
        let value = if Some(place) == at {
            make::bits(equal_bits(random, scope.lower))
        } else {
            expr(random, scope, depth)
        };
        args.push(make::arg(value));
    }
    add_keywords(random, var, &mut args);
    make::call(&var.name, args)
}

/// Gives some last arguments the names of kept dependents as keywords; never in a built-in.
fn add_keywords(random: &mut Random, var: &Var, args: &mut [Arg]) {
    if args.is_empty() || var.is_built_in() || !random.chance(20) {
        return;
    }
    let first = random.below(args.len());
    for arg in &mut args[first..] {
        arg.keyword = Some(random.pick(&var.kept).clone());
    }
}

/// The bits of a number equal to this one: the other zero for a zero at times.
fn equal_bits(random: &mut Random, bits: u64) -> u64 {
    if bits << 1 == 0 && random.chance(15) {
        bits ^ (1 << 63)
    } else {
        bits
    }
}
