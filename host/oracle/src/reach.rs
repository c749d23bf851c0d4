//! The models that a build visits, and the refusals that can be told from them, as document 01 defines them.

use treefile::records::{node, stmt};
use treefile::{File, Stmt};

/// The first model whose name has these bytes.
pub fn root(file: &File, root: &[u8]) -> Option<usize> {
    file.models
        .iter()
        .position(|model| file.name(model.name) == root)
}

/// The model that a submodel statement means, if there is one.
pub fn submodel(file: &File, stmt: &Stmt) -> Option<usize> {
    let name = file.nodes[stmt.right as usize].name;
    file.models.iter().position(|model| model.name == name)
}

/// The submodel statements of a model whose models are found, with those models.
pub fn found(file: &File, model: usize) -> Vec<(Stmt, usize)> {
    let stmts = file.stmts_of(&file.models[model]).iter();
    stmts
        .filter(|s| s.kind == stmt::SUBMODEL)
        .filter_map(|s| submodel(file, s).map(|m| (*s, m)))
        .collect()
}

/// The models reached from this one, itself first.
pub fn reached(file: &File, from: usize) -> Vec<usize> {
    let mut models = vec![from];
    let mut next = 0;
    while next < models.len() {
        for (_, m) in found(file, models[next]) {
            if !models.contains(&m) {
                models.push(m);
            }
        }
        next += 1;
    }
    models
}

/// Refusal 6: one of these models is reached from itself.
pub fn cyclic(file: &File, models: &[usize]) -> bool {
    let again = |m: &usize| {
        found(file, *m)
            .iter()
            .any(|(_, below)| reached(file, *below).contains(m))
    };
    models.iter().any(again)
}

/// Whether a name is t.
pub fn is_time(file: &File, name: u32) -> bool {
    file.name(name) == b"t"
}

/// Whether a name is reserved, t among them.
pub fn is_reserved(file: &File, name: u32) -> bool {
    let reserved: [&[u8]; 6] = [b"u", b"dudt", b"t", b"F", b"G", b"input"];
    reserved.contains(&file.name(name))
}

/// Refusal 7: an unknown of these models that is t or unreserved lists itself.
pub fn self_listed(file: &File, models: &[usize]) -> bool {
    models.iter().any(|&m| {
        file.unknowns_of(&file.models[m]).iter().any(|unknown| {
            let counts = is_time(file, unknown.name) || !is_reserved(file, unknown.name);
            counts && file.dependents_of(unknown).contains(&unknown.name)
        })
    })
}

/// Refusal 8: a submodel statement of these models has a positional argument whose number, keywords counted, is not below
/// its model's count of unknowns.
pub fn overfull(file: &File, models: &[usize]) -> bool {
    models.iter().any(|&m| {
        found(file, m).iter().any(|(stmt, below)| {
            let unknowns = file.models[*below].unknowns as usize;
            let arguments = file.children(stmt.right as usize);
            let beyond =
                |(i, argument): (usize, usize)| i >= unknowns && file.nodes[argument].name == 0;
            arguments.into_iter().enumerate().any(beyond)
        })
    })
}

/// The replacements of a submodel statement as pairs of a name and the top node of what replaces it; the later wins.
/// An argument beyond the unknowns replaces nothing here.
pub fn replacements(file: &File, stmt: &Stmt, model: usize) -> Vec<(u32, usize)> {
    let unknowns = file.unknowns_of(&file.models[model]);
    let mut replacements: Vec<(u32, usize)> = Vec::new();
    for (i, argument) in file.children(stmt.right as usize).into_iter().enumerate() {
        debug_assert_eq!(file.nodes[argument].kind, node::ARGUMENT);
        let keyword = file.nodes[argument].name.checked_sub(1);
        if let Some(name) = keyword.or_else(|| unknowns.get(i).map(|unknown| unknown.name)) {
            replacements.retain(|(other, _)| *other != name);
            replacements.push((name, argument - 1));
        }
    }
    replacements
}
