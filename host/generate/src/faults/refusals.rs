//! Faults for which a build is refused.

use crate::make;
use crate::prng::Random;
use crate::scope::Scope;
use crate::vocabulary::RESERVED;
use crate::walk::{has_call_left, is_submodel, stmts_where};
use treefile::source::{Domain, ExprKind, Model, StmtKind};

/// Refusal 7: an unknown that is t or unreserved lists itself.
pub fn lists_itself(random: &mut Random, models: &mut Vec<Model>, at: usize) {
    let unknowns = &mut models[at].unknowns;
    if unknowns.is_empty() {
        unknowns.push(make::unknown(b"t", &[b"t"], Domain::None));
        return;
    }
    let chosen = random.below(unknowns.len());
    let name = unknowns[chosen].name.clone();
    let dependents = &mut unknowns[chosen].dependents;
    let place = random.below(dependents.len() + 1);
    dependents.insert(place, name);
}

/// No refusal 7 but error 2: a reserved unknown lists itself.
pub fn lists_itself_reserved(random: &mut Random, models: &mut Vec<Model>, at: usize) {
    let name = *random.pick(&RESERVED);
    let unknown = make::unknown(name, &[name], Domain::None);
    models[at].unknowns.push(unknown);
}

/// Refusal 6: a model is reached from itself.
pub fn model_cycle(random: &mut Random, models: &mut Vec<Model>, at: usize) {
    let to = if random.chance(40) {
        at
    } else {
        random.below(models.len())
    };
    let name = models[to].name.clone();
    let place = random.below(models[at].stmts.len() + 1);
    models[at]
        .stmts
        .insert(place, make::submodel(&name, Vec::new()));
}

/// Refusal 8: a positional argument whose number is not below any model's count of unknowns.
pub fn too_many_positional(random: &mut Random, models: &mut Vec<Model>, at: usize) {
    let found = stmts_where(&models[at], is_submodel);
    if found.is_empty() {
        models.push(make::model(b"None", Vec::new(), Vec::new()));
        let args = vec![make::arg(make::name(b"t"))];
        models[at].stmts.push(make::submodel(b"None", args));
        return;
    }
    let chosen = *random.pick(&found);
    let most = models.iter().map(|m| m.unknowns.len()).max().unwrap_or(0);
    if let StmtKind::Submodel(call) = &mut models[at].stmts[chosen].kind {
        if let ExprKind::Call(_, args) = &mut call.kind {
            while args.len() <= most {
                args.push(make::arg(make::name(b"t")));
            }
        }
    }
}

/// Refusal 10: a left side too short for its time index.
pub fn short_left(random: &mut Random, models: &mut Vec<Model>, at: usize) {
    let found = stmts_where(&models[at], has_call_left);
    if found.is_empty() || random.chance(30) {
        let scope = Scope::of(&models[at]);
        let name = random.pick(&scope.vars).name.clone();
        let left = make::call(&name, Vec::new());
        let right = make::name(&name);
        models[at].stmts.push(make::equation(left, right));
        return;
    }
    let chosen = *random.pick(&found);
    if let StmtKind::Equation(left, _) = &mut models[at].stmts[chosen].kind {
        if let ExprKind::Call(_, args) = &mut left.kind {
            args.pop();
        }
    }
}
