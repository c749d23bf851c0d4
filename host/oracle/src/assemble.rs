//! From the original's report to the answer area.

use crate::check;
use crate::plan::Plan;
use crate::variables::{reaches_time, time_bounds};
use area::{fate, Area, AreaError, AreaStmt, AreaVariable};
use report::{Report, Taken};
use treefile::{File, Node, Stmt};

/// The area of a build that the original ended.
pub fn area(
    file: &File,
    plan: &Plan,
    report: &Report,
    errors: Vec<AreaError>,
) -> Result<Area, String> {
    check::report(file, plan, report)?;
    let mut area = Area {
        instances: plan.sizes.instances as u32,
        time: time_bounds(file, plan.model),
        nodes: Vec::new(),
        stmts: Vec::new(),
        variables: Vec::new(),
        dependents: Vec::new(),
        errors,
    };
    for s in 0..report.statements.len() {
        add_statement(&mut area, report, s)?;
    }
    for v in 0..plan.variables.len() {
        add_variable(&mut area, plan, report, v);
    }
    Ok(area)
}

fn add_statement(area: &mut Area, report: &Report, s: usize) -> Result<(), String> {
    let flat = &report.statements[s];
    let (fate, variable) = fate_of(report, s)?;
    let stmt = Stmt {
        kind: flat.kind,
        name: flat.name,
        left: add_tree(area, &flat.left),
        right: add_tree(area, &flat.right),
        span: flat.span,
    };
    area.stmts.push(AreaStmt {
        stmt,
        fate,
        variable,
    });
    Ok(())
}

/// Appends a tree and gives the number of its top node, or 0 where there is no tree.
fn add_tree(area: &mut Area, tree: &[Node]) -> u32 {
    area.nodes.extend_from_slice(tree);
    if tree.is_empty() {
        0
    } else {
        area.nodes.len() as u32 - 1
    }
}

/// The bounds are the file's own bits, whose payload a float need not keep.
fn add_variable(area: &mut Area, plan: &Plan, report: &Report, v: usize) {
    let variable = &report.built.variables[v];
    area.variables.push(AreaVariable {
        name: variable.name.map_or(0, |name| name + 1),
        state: variable.state,
        time_index: variable.time_index.map_or(0, |index| index as u32 + 1),
        first: area.dependents.len() as u32,
        count: variable.dependents.len() as u32,
        held: report.held[v].map_or(0, |held| held as u32 + 1),
        conditions: variable.conditions.len() as u32,
        time_dependent: reaches_time(&plan.variables, v),
        bounds: plan.variables[v].bounds,
    });
    let dependents = variable.dependents.iter().map(|d| *d as u32);
    area.dependents.extend(dependents);
}

/// A statement's fate and its variable.
fn fate_of(report: &Report, s: usize) -> Result<(u32, u32), String> {
    let holders = report.held.iter().enumerate();
    let holders: Vec<usize> = holders
        .filter(|(_, held)| **held == Some(s))
        .map(|(v, _)| v)
        .collect();
    let (fate, variable) = match (report.taken[s], holders.as_slice()) {
        (Taken::Condition(v), []) => (fate::CONDITION, v),
        (Taken::Rate(v), [holder]) if *holder == v => (fate::HELD, v),
        (Taken::Rate(v), []) => (fate::REPLACED, v),
        (Taken::Left, [holder]) => (fate::HELD, *holder),
        (Taken::Left, []) => (fate::LEFT_OVER, 0),
        (taken, _) => {
            return Err(format!(
                "statement {s} is {taken:?} and held by {holders:?}"
            ))
        }
    };
    Ok((fate, variable as u32))
}
