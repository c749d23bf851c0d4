//! A call of `ModelInfo::build` against its steps.

use crate::info::{Cell, Ending, Info, Message};
use crate::Flat;
use treefile::records::stmt;

/// What the order of the original's maps leaves open.
#[derive(Clone, Copy, Debug)]
pub enum Maps<'m> {
    /// Nothing: they keep the order of insertion.
    Ordered,
    /// Each map has an order of its own. Given are the cells that the steps paired with the statements that were left.
    Hashed { paired: &'m [usize] },
}

/// Whether a call gave what the steps give; an error says what differs.
pub fn agree(call: &Ending, steps: &Ending, maps: Maps) -> Result<(), String> {
    let result = match (call, steps, maps) {
        (Ending::Built(call), Ending::Built(steps), Maps::Ordered) => same(call, steps),
        (Ending::Built(call), Ending::Built(steps), Maps::Hashed { paired }) => {
            same_up_to_order(call, steps, paired)
        }
        _ if call == steps => Ok(()),
        _ => Err(format!("{} and {}", brief(call), brief(steps))),
    };
    result.map_err(|what| format!("ModelInfo::build and its steps differ: {what}"))
}

fn brief(ending: &Ending) -> String {
    match ending {
        Ending::Built(info) => format!("built with {} errors", info.errors.len()),
        other => format!("{other:?}"),
    }
}

fn require(holds: bool, what: &str) -> Result<(), String> {
    holds.then_some(()).ok_or_else(|| what.to_string())
}

/// Every field of the two is equal.
fn same(call: &Info, steps: &Info) -> Result<(), String> {
    require(call.name == steps.name, "the name")?;
    require(call.time == steps.time, "time")?;
    require(call.unknowns == steps.unknowns, "the unknowns")?;
    require(call.definitions == steps.definitions, "the definitions")?;
    require(call.variables == steps.variables, "the map of variables")?;
    require(call.stmts == steps.stmts, "the statements left behind")?;
    require(call.cells.len() == steps.cells.len(), "the count of cells")?;
    for (own, other) in call.cells.iter().zip(&steps.cells) {
        require(own == other, &format!("variable {}", own.name))?;
    }
    require(call.errors == steps.errors, "the errors")?;
    require(call == steps, "a field")
}

/// Every field is equal but for the order of the map and what hangs on it: which of several paired states holds which
/// statement, the order of the last pass's errors, and where statements of both kinds are paired, that pass's errors
/// about paired states. Of each side alone that pass must fit what its own variables hold.
fn same_up_to_order(call: &Info, steps: &Info, paired: &[usize]) -> Result<(), String> {
    for side in [call, steps] {
        require(last_pass_fits(side), "errors 16 and 17 and what is held")?;
        require(paired.iter().all(|p| *p < side.cells.len()), "the cells")?;
    }
    let held = [call, steps].map(|side| equations(side, paired));
    require(same_elements(&held[0], &held[1]), "the paired statements")?;
    let mixed = held[1].windows(2).any(|two| two[0].kind != two[1].kind);
    let open: &[usize] = if mixed { paired } else { &[] };
    let settled = [call, steps].map(|side| settled(side, paired, open));
    same(&settled[0], &settled[1])
}

/// The equations of the paired states that hold one.
fn equations<'i>(info: &'i Info, paired: &[usize]) -> Vec<&'i Flat> {
    let equations = paired.iter().map(|p| info.cells[*p].equation.as_ref());
    equations.flatten().collect()
}

fn same_elements<T: PartialEq>(some: &[T], others: &[T]) -> bool {
    let mut left: Vec<&T> = others.iter().collect();
    let taken = some.iter().all(|one| {
        let place = left.iter().position(|other| *other == one);
        place.map(|place| left.swap_remove(place)).is_some()
    });
    taken && left.is_empty()
}

/// The info with its map sorted, without the equations of paired states where there are several, and with the last
/// pass's errors sorted and those about the states `open` left out.
fn settled(info: &Info, paired: &[usize], open: &[usize]) -> Info {
    let mut info = info.clone();
    info.variables.sort();
    if paired.len() > 1 {
        paired.iter().for_each(|p| info.cells[*p].equation = None);
    }
    let names: Vec<_> = open.iter().map(|p| info.cells[*p].number).collect();
    let (mut pass, mut errors): (Vec<_>, Vec<_>) = info.errors.drain(..).partition(is_last_pass);
    pass.retain(|message| !names.contains(&message.error.name));
    pass.sort();
    errors.iter_mut().for_each(sort_unknowns);
    info.errors = errors;
    info.errors.extend(pass);
    info
}

fn is_last_pass(message: &Message) -> bool {
    matches!(message.error.kind, 16 | 17)
}

/// Errors 14 and 15 end with a list of states in the map's order.
fn sort_unknowns(message: &mut Message) {
    let before = "Unknowns are: [";
    if !matches!(message.error.kind, 14 | 15) {
        return;
    }
    if let Some((start, list)) = message.text.rsplit_once(before) {
        let mut states: Vec<_> = list.trim_end_matches(']').split(", ").collect();
        states.sort();
        message.text = format!("{start}{before}{}]", states.join(", "));
    }
}

/// Whether errors 16 and 17 are, in the map's order, those that follow from what each variable holds.
fn last_pass_fits(info: &Info) -> bool {
    let cells = info.variables.iter().map(|(_, cell)| &info.cells[*cell]);
    let due = cells.filter_map(|cell| Some((lacking(cell)?, cell.number)));
    let pass = info.errors.iter().filter(|message| is_last_pass(message));
    due.eq(pass.map(|message| (message.error.kind, message.error.name)))
}

/// Error 16 of a state that holds a rate equation without a condition, 17 of one that holds another with a condition.
fn lacking(cell: &Cell) -> Option<u32> {
    let state = cell.expression.is_none() && !cell.dependents.is_empty();
    let equation = cell.equation.as_ref().filter(|_| state)?;
    match (equation.kind == stmt::RATE, cell.init_conditions.is_empty()) {
        (true, true) => Some(16),
        (false, false) => Some(17),
        _ => None,
    }
}
