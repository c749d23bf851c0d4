//! Oddities that may or may not bring about an error.

use crate::expressions::{expr, leaf};
use crate::make;
use crate::models::domain;
use crate::prng::Random;
use crate::scope::Scope;
use crate::vocabulary;
use crate::walk::{change_one, has_call_left, is_submodel, stmts_where};
use treefile::source::{Arg, Domain, ExprKind, Model, StmtKind};

/// An unknown is declared again, with other dependents and another domain.
pub fn declared_twice(random: &mut Random, models: &mut Vec<Model>, at: usize) {
    let unknowns = &mut models[at].unknowns;
    if unknowns.is_empty() {
        return;
    }
    let mut again = random.pick(unknowns).clone();
    again.domain = domain(random);
    match random.below(3) {
        0 => again.dependents.clear(),
        1 => again.dependents.insert(0, b"t".to_vec()),
        _ => {}
    }
    let place = random.below(unknowns.len() + 1);
    unknowns.insert(place, again);
}

/// t is declared, with any bounds.
pub fn time_declared(random: &mut Random, models: &mut Vec<Model>, at: usize) {
    let domain = match random.below(4) {
        0 => domain(random),
        1 => Domain::Named(random.pick(&[&b"R"[..], b"NonNegative", b"Time"]).to_vec()),
        _ => Domain::Range(
            vocabulary::special_bits(random),
            vocabulary::special_bits(random),
        ),
    };
    let unknowns = &mut models[at].unknowns;
    let place = random.below(unknowns.len() + 1);
    unknowns.insert(place, make::unknown(b"t", &[], domain));
}

/// t is declared with dependents, a state from then on.
pub fn time_with_dependents(random: &mut Random, models: &mut Vec<Model>, at: usize) {
    let scope = Scope::of(&models[at]);
    let names = scope.names();
    let mut dependents: Vec<&[u8]> = vec![&random.pick(&names)[..]];
    if random.chance(30) {
        dependents.push(&random.pick(&names)[..]);
    }
    dependents.retain(|d| *d != b"t" || random.chance(10));
    let unknown = make::unknown(b"t", &dependents, Domain::None);
    models[at].unknowns.push(unknown);
    if random.chance(60) {
        let right = expr(random, &scope, 1);
        models[at].stmts.push(make::rate(b"t", right));
    }
}

/// Two unknowns list each other, before t or after it; often one of them has a rate equation.
pub fn dependency_cycle(random: &mut Random, models: &mut Vec<Model>, at: usize) {
    let unknowns = &mut models[at].unknowns;
    if unknowns.len() < 2 {
        unknowns.push(make::unknown(b"one", &[b"two"], Domain::None));
        unknowns.push(make::unknown(b"two", &[b"one"], Domain::None));
    }
    let (i, j) = (random.below(unknowns.len()), random.below(unknowns.len()));
    let (a, b) = (unknowns[i].name.clone(), unknowns[j].name.clone());
    if a == b {
        return;
    }
    let first = random.chance(50);
    for (place, name) in [(i, b), (j, a.clone())] {
        let dependents = &mut unknowns[place].dependents;
        let at = if first { 0 } else { dependents.len() };
        dependents.insert(at, name);
    }
    if random.chance(50) {
        models[at].stmts.push(make::rate(&a, make::name(b"t")));
    }
}

/// An unknown lists another name.
pub fn dependent_added(random: &mut Random, models: &mut Vec<Model>, at: usize) {
    let mut names = Scope::of(&models[at]).names();
    names.extend([b"nowhere".to_vec(), b"u".to_vec()]);
    let unknowns = &mut models[at].unknowns;
    if unknowns.is_empty() {
        return;
    }
    let chosen = random.below(unknowns.len());
    let name = random.pick(&names).clone();
    if name != unknowns[chosen].name || random.chance(10) {
        let place = random.below(unknowns[chosen].dependents.len() + 1);
        unknowns[chosen].dependents.insert(place, name);
    }
}

/// A statement stands twice.
pub fn statement_repeated(random: &mut Random, models: &mut Vec<Model>, at: usize) {
    let stmts = &mut models[at].stmts;
    if !stmts.is_empty() {
        let again = random.pick(stmts).clone();
        let place = random.below(stmts.len() + 1);
        stmts.insert(place, again);
    }
}

/// Two statements change places.
pub fn statements_swapped(random: &mut Random, models: &mut Vec<Model>, at: usize) {
    let stmts = &mut models[at].stmts;
    let (i, j) = (random.below(stmts.len()), random.below(stmts.len()));
    if !stmts.is_empty() {
        stmts.swap(i, j);
    }
}

/// Another model of the same name; the first is the one meant.
pub fn model_of_the_same_name(random: &mut Random, models: &mut Vec<Model>, at: usize) {
    let mut other = models[at].clone();
    match random.below(3) {
        0 => other.stmts.clear(),
        1 => other.unknowns.clear(),
        _ => other.stmts.reverse(),
    }
    if random.chance(60) {
        models.push(other);
    } else {
        let meant = std::mem::replace(&mut models[at], other);
        models.push(meant);
    }
}

/// A number becomes another.
pub fn number_changed(random: &mut Random, models: &mut Vec<Model>, at: usize) {
    let is_number = |e: &treefile::source::Expr| matches!(e.kind, ExprKind::Number(_));
    change_one(random, &mut models[at], &is_number, &mut |random, e| {
        *e = make::bits(vocabulary::special_bits(random));
    });
}

/// A sign comes before a number in a left side's call, which is no number then.
pub fn sign_before_start(random: &mut Random, models: &mut Vec<Model>, at: usize) {
    let found = stmts_where(&models[at], has_call_left);
    if found.is_empty() {
        return;
    }
    let chosen = *random.pick(&found);
    if let StmtKind::Equation(left, _) = &mut models[at].stmts[chosen].kind {
        if let ExprKind::Call(_, args) = &mut left.kind {
            for arg in args {
                let sign = *random.pick(b"+-");
                arg.value = make::unary(sign, arg.value.clone());
            }
        }
    }
}

/// Changes the arguments of a random submodel statement.
fn change_args(
    random: &mut Random,
    model: &mut Model,
    change: &mut dyn FnMut(&mut Random, &mut Vec<Arg>),
) {
    let found = stmts_where(model, is_submodel);
    if found.is_empty() {
        return;
    }
    let chosen = *random.pick(&found);
    if let StmtKind::Submodel(call) = &mut model.stmts[chosen].kind {
        if let ExprKind::Call(_, args) = &mut call.kind {
            change(random, args);
        }
    }
}

/// A keyword that the submodel does not declare.
pub fn unknown_keyword(random: &mut Random, models: &mut Vec<Model>, at: usize) {
    let scope = Scope::of(&models[at]);
    change_args(random, &mut models[at], &mut |random, args| {
        let name = random.pick(&[&b"nowhere"[..], b"q", b"t", b"u"]).to_vec();
        args.push(make::keyword(&name, expr(random, &scope, 1)));
    });
}

/// A keyword for what is replaced already; the later wins.
pub fn keyword_replaces_positional(random: &mut Random, models: &mut Vec<Model>, at: usize) {
    let scope = Scope::of(&models[at]);
    let names = scope.names();
    change_args(random, &mut models[at], &mut |random, args| {
        for _ in 0..random.between(1, 2) {
            let name = random.pick(&names).clone();
            args.push(make::keyword(&name, leaf(random, &scope)));
        }
    });
}

/// An expression becomes another.
pub fn expression_exchanged(random: &mut Random, models: &mut Vec<Model>, at: usize) {
    let scope = Scope::of(&models[at]);
    change_one(random, &mut models[at], &|_| true, &mut |random, e| {
        *e = expr(random, &scope, 2);
    });
}

/// Two arguments of a submodel statement change their values, or one takes another.
pub fn arguments_swapped(random: &mut Random, models: &mut Vec<Model>, at: usize) {
    let scope = Scope::of(&models[at]);
    change_args(random, &mut models[at], &mut |random, args| {
        if args.is_empty() {
            return;
        }
        let (i, j) = (random.below(args.len()), random.below(args.len()));
        if i == j {
            args[i].value = expr(random, &scope, 1);
        } else {
            let value = args[i].value.clone();
            args[i].value = std::mem::replace(&mut args[j].value, value);
        }
    });
}

/// A submodel is called once more, with another argument.
pub fn called_again(random: &mut Random, models: &mut Vec<Model>, at: usize) {
    let found = stmts_where(&models[at], is_submodel);
    if found.is_empty() {
        return;
    }
    let again = models[at].stmts[*random.pick(&found)].clone();
    models[at].stmts.push(again);
    arguments_swapped(random, models, at);
}
