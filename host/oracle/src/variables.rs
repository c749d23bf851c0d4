//! The root's variables as document 01 defines them, as far as refusal 10, bounds and time-dependence need them.

use crate::reach::{is_reserved, is_time};
use treefile::records::domain;
use treefile::{File, Unknown};

/// A variable.
#[derive(Clone, Debug, PartialEq, Eq)]
pub struct Variable {
    /// `None` for t where no name is t.
    pub name: Option<u32>,
    /// The kept dependents, as numbers of variables.
    pub dependents: Vec<usize>,
    pub time_index: Option<usize>,
    /// The bits of lower and upper bound.
    pub bounds: [u64; 2],
}

/// The variables of a model, t first.
pub fn variables(file: &File, model: usize) -> Vec<Variable> {
    let unknowns = file.unknowns_of(&file.models[model]);
    let new = |name, bounds| Variable {
        name,
        dependents: Vec::new(),
        time_index: None,
        bounds,
    };
    let mut variables = vec![new(file.find_name(b"t"), bits(0.0, f64::INFINITY))];
    for unknown in unknowns
        .iter()
        .filter(|unknown| !is_reserved(file, unknown.name))
    {
        match variables.iter_mut().find(|v| v.name == Some(unknown.name)) {
            Some(variable) => variable.bounds = bounds(file, unknown),
            None => variables.push(new(Some(unknown.name), bounds(file, unknown))),
        }
    }
    for unknown in unknowns {
        if let Some(v) = find(&variables, unknown.name) {
            for dependent in file.dependents_of(unknown) {
                let Some(dependent) = find(&variables, *dependent) else {
                    continue;
                };
                if dependent == 0 {
                    variables[v].time_index = Some(variables[v].dependents.len());
                }
                variables[v].dependents.push(dependent);
            }
        }
    }
    variables
}

/// The variable with this name.
pub fn find(variables: &[Variable], name: u32) -> Option<usize> {
    variables.iter().position(|v| v.name == Some(name))
}

/// The bits of time's bounds in a model.
pub fn time_bounds(file: &File, model: usize) -> [u64; 2] {
    let mut unknowns = file.unknowns_of(&file.models[model]).iter();
    let declared = unknowns.rfind(|unknown| is_time(file, unknown.name));
    declared.map_or(bits(0.0, f64::INFINITY), |unknown| bounds(file, unknown))
}

fn bounds(file: &File, unknown: &Unknown) -> [u64; 2] {
    match unknown.domain {
        domain::RANGE => [unknown.lower, unknown.upper],
        domain::NAMED if file.name(unknown.lower as u32) == b"NonNegative" => {
            bits(0.0, f64::INFINITY)
        }
        domain::NONE if is_time(file, unknown.name) => bits(0.0, f64::INFINITY),
        _ => bits(f64::NEG_INFINITY, f64::INFINITY),
    }
}

fn bits(lower: f64, upper: f64) -> [u64; 2] {
    [lower.to_bits(), upper.to_bits()]
}

/// Whether a variable is t or reaches t through dependents.
pub fn reaches_time(variables: &[Variable], v: usize) -> bool {
    let mut seen = vec![v];
    let mut next = 0;
    while next < seen.len() {
        for d in &variables[seen[next]].dependents {
            if !seen.contains(d) {
                seen.push(*d);
            }
        }
        next += 1;
    }
    seen.contains(&0)
}

/// The answer of the original's walk for time-dependence, or `None` where it takes more calls than these.
pub fn walk(variables: &[Variable], v: usize, mut most: u32) -> Option<bool> {
    step(variables, v, &mut most)
}

fn step(variables: &[Variable], v: usize, budget: &mut u32) -> Option<bool> {
    *budget = budget.checked_sub(1)?;
    if variables[v].time_index.is_some() || v == 0 {
        return Some(true);
    }
    for d in &variables[v].dependents {
        if step(variables, *d, budget)? {
            return Some(true);
        }
    }
    Some(false)
}
