//! An answer put into the form in which a run of the original is reported.

use area::{fate, Area, AreaError, AreaVariable};
use report::{Built, Condition, Error, Flat, Report, Taken, Variable};
use treefile::records::{node, stmt};
use treefile::Node;

/// The report that an answer amounts to, without what only a run can tell; `None` where a number leads nowhere or a fate
/// does not fit what is held.
pub fn report(area: &Area) -> Option<Report> {
    if !(0..area.stmts.len()).all(|s| fits(area, s)) {
        return None;
    }
    let variables = (0..area.variables.len()).map(|v| variable(area, v));
    let flats = (0..area.stmts.len()).map(|s| flat(area, s));
    let held = area.variables.iter().map(|v| below(v.held));
    Some(Report {
        built: Built {
            variables: variables.collect::<Option<_>>()?,
            time: area.time,
            errors: area.errors.iter().map(error).collect(),
        },
        statements: flats.collect::<Option<_>>()?,
        taken: (0..area.stmts.len()).map(|s| taken(area, s)).collect(),
        held: held.map(|h| h.map(|s| s as usize)).collect(),
        instances: None,
    })
}

/// A number that is kept plus 1, 0 standing for none.
fn below(plus_1: u32) -> Option<u32> {
    plus_1.checked_sub(1)
}

/// Whether a statement is held by its variable alone where its fate says so, and else by none.
fn fits(area: &Area, s: usize) -> bool {
    let own = &area.stmts[s];
    let holders = area.variables.iter().enumerate();
    let holders = holders.filter(|(_, v)| v.held as usize == s + 1);
    let due = (own.fate == fate::HELD).then_some(own.variable as usize);
    holders.map(|(v, _)| v).eq(due)
}

/// The message of error 7 has no name.
fn error(error: &AreaError) -> Error {
    Error {
        kind: error.kind,
        span: (error.span.start, error.span.end),
        name: below(error.name).filter(|_| error.kind != 7),
    }
}

fn variable(area: &Area, v: usize) -> Option<Variable> {
    let own = &area.variables[v];
    let (first, count) = (own.first as usize, own.count as usize);
    let dependents = area.dependents.get(first..first + count)?;
    let taken = area.stmts.iter().enumerate();
    let taken = taken.filter(|(_, s)| s.fate == fate::CONDITION && s.variable as usize == v);
    let conditions = taken.map(|(s, _)| condition(area, s, own));
    Some(Variable {
        name: below(own.name),
        dependents: dependents.iter().map(|d| *d as usize).collect(),
        time_index: below(own.time_index).map(|i| i as usize),
        bounds: own.bounds,
        state: own.state,
        time_dependent: None,
        equation: None,
        conditions: conditions.collect::<Option<_>>()?,
    })
}

fn flat(area: &Area, s: usize) -> Option<Flat> {
    let stmt = area.stmts[s].stmt;
    let left = match stmt.kind {
        stmt::RATE => Vec::new(),
        _ => tree(area, stmt.left)?.to_vec(),
    };
    Some(Flat {
        kind: stmt.kind,
        name: stmt.name,
        left,
        right: tree(area, stmt.right)?.to_vec(),
        span: stmt.span,
    })
}

/// The nodes of the tree with this top.
fn tree(area: &Area, top: u32) -> Option<&[Node]> {
    let end = top as usize + 1;
    let size = area.nodes.get(top as usize)?.size as usize;
    area.nodes.get(end.checked_sub(size)?..end)
}

/// A statement's initial condition of a variable: the number in time's place on the left, and the right side.
fn condition(area: &Area, s: usize, own: &AreaVariable) -> Option<Condition> {
    let flat = flat(area, s)?;
    let (_, mut rest) = flat.left.split_last()?;
    let mut arguments = Vec::new();
    while let Some((argument, before)) = rest.split_last() {
        arguments.push(before.last()?);
        rest = rest.get(..rest.len().checked_sub(argument.size as usize)?)?;
    }
    arguments.reverse();
    let number = arguments.get(below(own.time_index)? as usize)?;
    (number.kind == node::NUMBER).then_some(Condition {
        location: number.number,
        right: flat.right,
    })
}

/// What became of a statement before the rest is paired: a rate equation that names a time-dependent state is taken.
fn taken(area: &Area, s: usize) -> Taken {
    let own = &area.stmts[s];
    let takes = |v: &AreaVariable| {
        own.stmt.kind == stmt::RATE && v.name == own.stmt.name + 1 && v.state && v.time_dependent
    };
    match own.fate {
        fate::CONDITION => Taken::Condition(own.variable as usize),
        fate::REPLACED => Taken::Rate(own.variable as usize),
        fate::HELD => match area.variables.iter().position(takes) {
            Some(v) => Taken::Rate(v),
            None => Taken::Left,
        },
        _ => Taken::Left,
    }
}
