//! Faults that a build lists as errors, in the order of the errors' numbers.

use crate::expressions::{condition, expr, leaf};
use crate::make;
use crate::prng::Random;
use crate::scope::{Scope, Var};
use crate::vocabulary::{self, BUILT_INS, NO_DOMAINS, RESERVED, TABLE_ONLY};
use crate::walk::{change_one, has_call_left, is_leaf, is_submodel, stmts_where};
use treefile::source::{Arg, Domain, Expr, ExprKind, Model, Stmt, StmtKind};

fn insert(random: &mut Random, model: &mut Model, stmt: Stmt) {
    let at = random.below(model.stmts.len() + 1);
    model.stmts.insert(at, stmt);
}

/// Puts an expression in a leaf's place; where there is no leaf, into an equation of its own.
fn put_expr(random: &mut Random, model: &mut Model, expr: Expr) {
    let put = change_one(random, model, &is_leaf, &mut |_, e| *e = expr.clone());
    if !put {
        let right = make::bits(vocabulary::bits(random));
        insert(random, model, make::equation(expr, right));
    }
}

fn leaves(random: &mut Random, scope: &Scope, count: usize) -> Vec<Arg> {
    (0..count).map(|_| make::arg(leaf(random, scope))).collect()
}

/// A variable that may be called, a state where there is one.
fn callable(random: &mut Random, scope: &Scope) -> Var {
    let vars: Vec<Var> = scope
        .states()
        .into_iter()
        .filter(|v| !v.is_built_in())
        .collect();
    if vars.is_empty() {
        random.pick(&scope.vars).clone()
    } else {
        random.pick(&vars).clone()
    }
}

/// Error 1: a domain that does not exist.
pub fn unknown_domain(random: &mut Random, models: &mut Vec<Model>, at: usize) {
    let unknowns = &mut models[at].unknowns;
    let domain = Domain::Named(random.pick(&NO_DOMAINS).to_vec());
    match random.below(unknowns.len() + 1) {
        0 => unknowns.push(make::unknown(b"d", &[], domain)),
        i => unknowns[i - 1].domain = domain,
    }
}

/// Error 2: a reserved name is declared.
pub fn reserved_unknown(random: &mut Random, models: &mut Vec<Model>, at: usize) {
    let name = *random.pick(&RESERVED);
    let dependents: Vec<&[u8]> = match random.below(4) {
        0 => vec![],
        1 => vec![b"t"],
        2 => vec![name],
        _ => vec![b"t", b"x"],
    };
    let domain = crate::models::domain(random);
    let unknowns = &mut models[at].unknowns;
    let place = random.between(unknowns.len() / 2, unknowns.len());
    unknowns.insert(place, make::unknown(name, &dependents, domain));
}

/// Error 3: no model has the name.
pub fn missing_submodel(random: &mut Random, models: &mut Vec<Model>, at: usize) {
    let scope = Scope::of(&models[at]);
    let count = random.below(3);
    let mut args = leaves(random, &scope, count);
    if random.chance(30) {
        args.insert(0, make::keyword(b"s", leaf(random, &scope)));
    }
    let name = *random.pick(&[&b"Missing"[..], b"x", b"sin", b"m"]);
    insert(random, &mut models[at], make::submodel(name, args));
}

/// Error 4: a submodel statement with a positional argument after a keyword.
pub fn positional_after_keyword(random: &mut Random, models: &mut Vec<Model>, at: usize) {
    let scope = Scope::of(&models[at]);
    let found = stmts_where(&models[at], is_submodel);
    if found.is_empty() {
        let args = vec![
            make::keyword(b"a", leaf(random, &scope)),
            make::arg(leaf(random, &scope)),
        ];
        let unknowns = vec![
            make::unknown(b"a", &[], Domain::None),
            make::unknown(b"b", &[], Domain::None),
        ];
        models.push(make::model(b"Late", unknowns, Vec::new()));
        insert(random, &mut models[at], make::submodel(b"Late", args));
        return;
    }
    let chosen = *random.pick(&found);
    if let StmtKind::Submodel(call) = &mut models[at].stmts[chosen].kind {
        if let ExprKind::Call(_, args) = &mut call.kind {
            let keyword = make::keyword(&random.pick(&scope.vars).name, leaf(random, &scope));
            let place = random.below(args.len() + 1);
            args.insert(place, keyword);
            if place + 1 == args.len() {
                args.push(make::arg(leaf(random, &scope)));
            }
        }
    }
}

/// Error 5: a name that is no variable.
pub fn name_not_found(random: &mut Random, models: &mut Vec<Model>, at: usize) {
    let name = *random.pick(&[&b"nowhere"[..], b"u", b"sin", b"input", b"\xfe", b"dudt"]);
    put_expr(random, &mut models[at], make::name(name));
}

/// Error 5: a rate equation of a name that is no variable.
pub fn rate_of_no_variable(random: &mut Random, models: &mut Vec<Model>, at: usize) {
    let scope = Scope::of(&models[at]);
    let name = *random.pick(&[&b"nowhere"[..], b"u", b"cos", b"q"]);
    let right = expr(random, &scope, 1);
    insert(random, &mut models[at], make::rate(name, right));
}

/// Error 6: a count against the table.
pub fn wrong_count(random: &mut Random, models: &mut Vec<Model>, at: usize) {
    let scope = Scope::of(&models[at]);
    let (name, count) = if random.chance(60) {
        *random.pick(&BUILT_INS)
    } else {
        *random.pick(&TABLE_ONLY)
    };
    let wrong = match random.below(4) {
        0 => 0,
        1 => count + 1,
        2 => count.saturating_sub(1),
        _ => random.below(5),
    };
    let args = leaves(random, &scope, wrong);
    put_expr(random, &mut models[at], make::call(name, args));
}

/// Error 7: a keyword in a built-in.
pub fn keyword_in_built_in(random: &mut Random, models: &mut Vec<Model>, at: usize) {
    let scope = Scope::of(&models[at]);
    let (name, count) = *random.pick(&BUILT_INS);
    let mut args = leaves(random, &scope, count);
    for _ in 0..random.between(1, 2) {
        let place = random.below(args.len());
        let keyword = random.pick(&[&b"x"[..], b"t", b"nope"]).to_vec();
        args[place].keyword = Some(keyword);
    }
    put_expr(random, &mut models[at], make::call(name, args));
}

/// Error 8: a count against the variable.
pub fn wrong_variable_count(random: &mut Random, models: &mut Vec<Model>, at: usize) {
    let scope = Scope::of(&models[at]);
    let var = callable(random, &scope);
    let count = var.kept.len();
    let wrong = *random.pick(&[0, count + 1, count.saturating_sub(1), count + 2]);
    let args = leaves(random, &scope, wrong);
    put_expr(random, &mut models[at], make::call(&var.name, args));
}

/// Error 9: a keyword that is no dependent.
pub fn no_such_dependent(random: &mut Random, models: &mut Vec<Model>, at: usize) {
    let scope = Scope::of(&models[at]);
    let var = callable(random, &scope);
    let mut args = leaves(random, &scope, var.kept.len().max(1));
    let keyword = random.pick(&[&b"nope"[..], b"u", &var.name]).to_vec();
    if let Some(last) = args.last_mut() {
        last.keyword = Some(keyword);
    }
    put_expr(random, &mut models[at], make::call(&var.name, args));
}

/// Error 10: a positional argument after a named one.
pub fn positional_after_named(random: &mut Random, models: &mut Vec<Model>, at: usize) {
    let scope = Scope::of(&models[at]);
    let states: Vec<Var> = scope.states();
    let var = states.iter().find(|v| v.kept.len() > 1 && !v.is_built_in());
    let var = var.cloned().unwrap_or_else(|| callable(random, &scope));
    let keyword: &[u8] = var.kept.first().map_or(b"nope", |d| d);
    let mut args = vec![make::keyword(keyword, leaf(random, &scope))];
    args.append(&mut leaves(random, &scope, var.kept.len().max(2) - 1));
    put_expr(random, &mut models[at], make::call(&var.name, args));
}

/// Error 11: neither a function nor a variable.
pub fn no_function(random: &mut Random, models: &mut Vec<Model>, at: usize) {
    let scope = Scope::of(&models[at]);
    let (name, count) = match random.below(3) {
        0 => *random.pick(&TABLE_ONLY),
        1 => (*random.pick(&RESERVED), random.below(3)),
        _ => (&b"no"[..], random.below(3)),
    };
    let args = leaves(random, &scope, count);
    put_expr(random, &mut models[at], make::call(name, args));
}

/// Error 12: another number in a left side's call.
pub fn other_start(random: &mut Random, models: &mut Vec<Model>, at: usize) {
    let found = stmts_where(&models[at], has_call_left);
    if found.is_empty() {
        return;
    }
    let chosen = *random.pick(&found);
    let bits = vocabulary::special_bits(random);
    if let StmtKind::Equation(left, _) = &mut models[at].stmts[chosen].kind {
        if let ExprKind::Call(_, args) = &mut left.kind {
            for arg in args {
                if let ExprKind::Number(number) = &mut arg.value.kind {
                    *number = bits;
                }
            }
        }
    }
}

/// Error 13: a rate equation of a variable that is no time-dependent state.
pub fn rate_without_time(random: &mut Random, models: &mut Vec<Model>, at: usize) {
    let scope = Scope::of(&models[at]);
    let mut names = scope.names();
    names.retain(|n| {
        scope
            .find(n)
            .is_some_and(|v| scope.vars[v].time_index().is_none())
    });
    if names.is_empty() {
        return;
    }
    let name = random.pick(&names).clone();
    let right = expr(random, &scope, 1);
    insert(random, &mut models[at], make::rate(&name, right));
}

/// Error 14 often: a statement is missing.
pub fn statement_removed(random: &mut Random, models: &mut Vec<Model>, at: usize) {
    let stmts = &mut models[at].stmts;
    if !stmts.is_empty() {
        stmts.remove(random.below(stmts.len()));
    }
}

/// Error 14 often: a state that nothing is written for.
pub fn state_added(random: &mut Random, models: &mut Vec<Model>, at: usize) {
    let dependents: Vec<&[u8]> = match random.below(3) {
        0 => vec![b"t"],
        1 => vec![b"x"],
        _ => vec![b"t", b"y"],
    };
    let state = make::unknown(b"extra", &dependents, Domain::None);
    models[at].unknowns.push(state);
}

/// Error 15 often: an equation that no state is left for.
pub fn equation_added(random: &mut Random, models: &mut Vec<Model>, at: usize) {
    let scope = Scope::of(&models[at]);
    let stmt = make::equation(leaf(random, &scope), expr(random, &scope, 1));
    insert(random, &mut models[at], stmt);
}

/// Error 16 often: an initial condition is missing.
pub fn condition_removed(random: &mut Random, models: &mut Vec<Model>, at: usize) {
    let found = stmts_where(&models[at], has_call_left);
    if !found.is_empty() {
        let chosen = *random.pick(&found);
        models[at].stmts.remove(chosen);
    }
}

/// Error 17 where the state is an algebraic one: an initial condition more.
pub fn condition_added(random: &mut Random, models: &mut Vec<Model>, at: usize) {
    let mut scope = Scope::of(&models[at]);
    let mut states = scope.states();
    states.retain(|v| v.time_index().is_some());
    if states.is_empty() || random.chance(60) {
        let extra = make::unknown(b"extra", &[b"t"], Domain::None);
        models[at].unknowns.push(extra);
        scope = Scope::of(&models[at]);
        let right = expr(random, &scope, 1);
        insert(
            random,
            &mut models[at],
            make::equation(make::name(b"extra"), right),
        );
        states = scope.states();
        states.retain(|v| v.name == b"extra" && v.time_index().is_some());
    }
    if let Some(var) = states.get(random.below(states.len())) {
        let left = condition(random, &scope, var, 1);
        let right = expr(random, &scope, 1);
        insert(random, &mut models[at], make::equation(left, right));
    }
}

/// Errors 13 or 5, and 16: a state is left to hold a rate equation that names another.
pub fn state_holds_a_strange_rate(random: &mut Random, models: &mut Vec<Model>, at: usize) {
    let scope = Scope::of(&models[at]);
    let extra = make::unknown(b"extra", &[b"x", b"t"], Domain::None);
    models[at].unknowns.push(extra);
    let name = *random.pick(&[&b"nowhere"[..], b"t", b"k"]);
    let right = expr(random, &scope, 1);
    insert(random, &mut models[at], make::rate(name, right));
}
