//! What the original reports must agree with document 01's own rules, and its two runs with each other.

use crate::plan::Plan;
use crate::variables::{self, reaches_time, time_bounds};
use report::{Report, Taken, Variable};
use treefile::File;

/// Checks a report against what was worked out before the run.
pub fn report(file: &File, plan: &Plan, report: &Report) -> Result<(), String> {
    let flattened = plan.flattened.as_ref().map(|flat| &flat.statements);
    let time = time_bounds(file, plan.model);
    let built = &report.built;
    same("instances", report.instances == Some(plan.sizes.instances))?;
    same(
        "a flattened statement",
        Some(&report.statements) == flattened,
    )?;
    same(
        "the count of variables",
        built.variables.len() == plan.variables.len(),
    )?;
    same("time's bounds", same_bounds(built.time, time))?;
    for (v, own) in plan.variables.iter().enumerate() {
        variable(&built.variables[v], own)?;
        holdings(report, v)?;
        let walked = built.variables[v].time_dependent;
        let reaches = reaches_time(&plan.variables, v);
        same(
            "time-dependence",
            walked.is_none_or(|walked| walked == reaches),
        )?;
    }
    Ok(())
}

fn same(what: &str, holds: bool) -> Result<(), String> {
    holds.then_some(()).ok_or_else(|| format!("{what} differs"))
}

fn variable(rust: &Variable, own: &variables::Variable) -> Result<(), String> {
    same("a variable's name", rust.name == own.name)?;
    same("a variable's dependents", rust.dependents == own.dependents)?;
    same("a variable's time index", rust.time_index == own.time_index)?;
    same("a variable's bounds", same_bounds(rust.bounds, own.bounds))
}

/// What a variable holds in the end is what it took in the steps.
fn holdings(report: &Report, v: usize) -> Result<(), String> {
    let variable = &report.built.variables[v];
    let held = report.held[v].map(|s| &report.statements[s]);
    same("a held equation", variable.equation.as_ref() == held)?;
    let steps = report.taken.iter().zip(&report.statements);
    let taken = steps.filter(|(taken, _)| **taken == Taken::Condition(v));
    let rights = variable.conditions.iter().map(|condition| &condition.right);
    same(
        "an initial condition",
        rights.eq(taken.map(|(_, flat)| &flat.right)),
    )
}

/// Equal bits, or both not a number.
fn same_bounds(a: [u64; 2], b: [u64; 2]) -> bool {
    let nan = |bits| f64::from_bits(bits).is_nan();
    a.iter().zip(b).all(|(a, b)| *a == b || (nan(*a) && nan(b)))
}
