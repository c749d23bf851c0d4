//! What every answer keeps, whatever was built: the layout of an area, and what its records say of one another.

use area::fate::{CONDITION, HELD, LEFT_OVER, REPLACED};
use area::layout::{MOSTS, MOST_INSTANCES};
use area::Sections;
use treefile::records::{node, stmt};

/// Counts that have a most, by their places in the header. Errors have none, since all are counted.
const COUNTS: [(usize, usize, &str); 5] = [
    (0, MOSTS[0], "nodes"),
    (1, MOSTS[1], "statements"),
    (2, MOSTS[2], "variables"),
    (3, MOSTS[3], "dependents"),
    (5, MOST_INSTANCES, "instances"),
];
/// Errors that bear no name: a positional argument behind a keyword (twice), under- and overdetermined.
const NAMELESS: [u32; 4] = [4, 10, 14, 15];

/// Checks an answer to a file with so many names; an error says what is wrong.
pub fn check(answer: &Sections, names: usize) -> Result<(), String> {
    for (at, most, what) in COUNTS {
        let count = answer.counts()[at];
        holds(count <= most, || format!("{count} {what}"))?;
    }
    holds(answer.counts()[2] >= 1, || "no variable".to_string())?;
    holds(answer.counts()[5] >= 1, || "no instance".to_string())?;
    nodes(answer, names)?;
    stmts(answer, names)?;
    variables(answer, names)?;
    errors(answer, names)?;
    match answer.counts()[4] {
        0 => clean(answer),
        _ => Ok(()),
    }
}

fn holds(holds: bool, what: impl Fn() -> String) -> Result<(), String> {
    match holds {
        true => Ok(()),
        false => Err(what()),
    }
}

/// Every node's fields are those of its kind, and its size is what it and its children come to.
fn nodes(answer: &Sections, names: usize) -> Result<(), String> {
    let all: Vec<&[u32]> = answer.nodes().collect();
    for (i, n) in all.iter().enumerate() {
        let (kind, name, op, size) = (n[0], n[1] as usize, n[2], n[3] as usize);
        let is_op = |ops: &[u8]| ops.iter().any(|byte| u32::from(*byte) == op);
        let bits = n[6] != 0 || n[7] != 0;
        let (fields, children) = match kind {
            node::NAME => (name < names && op == 0 && !bits, 0),
            node::NUMBER => (name == 0 && op == 0, 0),
            node::BINARY => (name == 0 && is_op(b"+-*/") && !bits, 2),
            node::UNARY => (name == 0 && is_op(b"+-") && !bits, 1),
            node::CALL => (name < names && !bits, op),
            node::ARGUMENT => (name <= names && op == 0 && !bits, 1),
            _ => (false, 0),
        };
        holds(fields && n[4] <= n[5], || format!("node {i}: {n:?}"))?;
        let mut end = Some(i);
        for _ in 0..children {
            end = end
                .and_then(|end| end.checked_sub(1))
                .filter(|at| (all[*at][0] == node::ARGUMENT) == (kind == node::CALL))
                .and_then(|at| (at + 1).checked_sub(all[at][3] as usize));
        }
        let sized = end.is_some_and(|end| i + 1 - end == size);
        holds(sized, || format!("the size of node {i}: {n:?}"))?;
    }
    Ok(())
}

/// The trees fill the nodes in order; each fate fits what the statement's variable holds.
fn stmts(answer: &Sections, names: usize) -> Result<(), String> {
    let nodes: Vec<&[u32]> = answer.nodes().collect();
    let variables: Vec<&[u32]> = answer.variables().collect();
    let mut total = 0;
    let mut tree = |top: u32| {
        let sized = nodes
            .get(top as usize)
            .is_some_and(|n| n[0] != node::ARGUMENT && total + n[3] as usize == top as usize + 1);
        total = top as usize + 1;
        sized
    };
    for (i, s) in answer.stmts().enumerate() {
        let trees = match s[0] {
            stmt::EQUATION => s[1] == 0 && tree(s[2]) && tree(s[3]),
            stmt::RATE => (s[1] as usize) < names && s[2] == 0 && tree(s[3]),
            _ => false,
        };
        holds(trees && s[4] <= s[5], || format!("statement {i}: {s:?}"))?;
        let held = variables.get(s[7] as usize).map(|v| v[5] as usize);
        let fits = match (s[6], held) {
            (_, None) => false,
            (CONDITION, _) => s[0] == stmt::EQUATION,
            (HELD, Some(held)) => held == i + 1,
            (REPLACED, Some(held)) => s[0] == stmt::RATE && held > i + 1,
            (LEFT_OVER, _) => s[7] == 0,
            _ => false,
        };
        holds(fits, || format!("the fate of statement {i}: {s:?}"))?;
    }
    holds(total == nodes.len(), || {
        format!("trees end at node {total}")
    })
}

/// The runs fill the dependents in order; state, time index, time-dependence and what is held follow from the rest.
fn variables(answer: &Sections, names: usize) -> Result<(), String> {
    let dependents = answer.dependents();
    let count = answer.counts()[2];
    let stmts: Vec<&[u32]> = answer.stmts().collect();
    let mut named = vec![false; names + 1];
    let mut total = 0;
    let mut runs: Vec<&[u32]> = Vec::new();
    for (i, v) in answer.variables().enumerate() {
        let wrong = || format!("variable {i}: {v:?}");
        let name = v[0] as usize;
        let new = (name > 0 || i == 0) && name <= names && !named[name];
        holds(new, wrong)?;
        named[name] = name > 0;
        let run = (v[3] as usize == total).then(|| dependents.get(total..total + v[4] as usize));
        let run = run.flatten().ok_or_else(wrong)?;
        total += run.len();
        let last_time = run.iter().rposition(|d| *d == 0).map_or(0, |at| at + 1);
        let fields = v[1] == u32::from(!run.is_empty()) && v[2] as usize == last_time && v[7] <= 1;
        holds(fields, wrong)?;
        let in_range = run.iter().all(|d| (*d as usize) < count);
        holds(in_range, || format!("a dependent of variable {i}: {run:?}"))?;
        let holding = match (v[5] as usize).checked_sub(1) {
            None => true,
            Some(s) => {
                v[1] == 1
                    && stmts
                        .get(s)
                        .is_some_and(|s| s[6] == HELD && s[7] as usize == i)
            }
        };
        holds(holding, || format!("what variable {i} holds: {v:?}"))?;
        let own = |s: &&&[u32]| s[6] == CONDITION && s[7] as usize == i;
        let conditions = stmts.iter().filter(own).count();
        holds(v[6] as usize == conditions, || {
            format!("conditions of variable {i}: {v:?}")
        })?;
        runs.push(run);
    }
    holds(total == dependents.len(), || {
        format!("runs end at dependent {total}")
    })?;
    let reaching = reaching(&runs);
    let marked = answer.variables().map(|v| v[7] == 1);
    holds(marked.eq(reaching.iter().copied()), || {
        "time-dependence".to_string()
    })
}

/// Which variables are t or reach it through dependents.
fn reaching(runs: &[&[u32]]) -> Vec<bool> {
    let mut reached = vec![false; runs.len()];
    reached[0] = true;
    let mut more = true;
    while more {
        more = false;
        for (i, run) in runs.iter().enumerate() {
            if !reached[i] && run.iter().any(|d| reached[*d as usize]) {
                reached[i] = true;
                more = true;
            }
        }
    }
    reached
}

fn errors(answer: &Sections, names: usize) -> Result<(), String> {
    for (i, e) in answer.errors().enumerate() {
        let kind = (1..=17).contains(&e[0]) && e[1] <= e[2];
        let name = match NAMELESS.contains(&e[0]) {
            true => e[3] == 0,
            false => (1..=names).contains(&(e[3] as usize)),
        };
        holds(kind && name, || format!("error {i}: {e:?}"))?;
    }
    Ok(())
}

/// Without errors every state holds a statement, none is left over, and a state that holds a rate equation has an initial
/// condition while one that holds an equation has none.
fn clean(answer: &Sections) -> Result<(), String> {
    let stmts: Vec<&[u32]> = answer.stmts().collect();
    let left = stmts.iter().position(|s| s[6] == LEFT_OVER);
    holds(left.is_none(), || {
        format!("statement {left:?} left over without an error")
    })?;
    for (i, v) in answer.variables().enumerate() {
        let held = (v[5] as usize).checked_sub(1).map(|s| stmts[s][0]);
        let fits = match held {
            None => v[1] == 0,
            Some(stmt::RATE) => v[6] > 0,
            Some(_) => v[6] == 0,
        };
        holds(fits, || format!("variable {i} without an error: {v:?}"))?;
    }
    Ok(())
}
