//! The steps of `ModelInfo::build`, watched one by one for what the call alone does not tell.

use crate::ast::Ast;
use crate::continuous::builder::{access, ModelInfo, Variable};
use crate::texts::Texts;
use crate::{extract, info, ordered};
use report::{Info, Report, Request, Taken};
use std::cell::RefCell;
use std::rc::Rc;

type Cell<'s> = Rc<RefCell<Variable<'s>>>;

/// What the steps gave.
pub struct Watched {
    pub report: Report,
    pub info: Info,
    /// The cells of the info that were paired with statements that were left.
    pub paired: Vec<usize>,
}

/// A root name and models to be built, in the original's own form. The decided states of the request get stand-ins for
/// their dependents while statements are handed out, so that their time-dependence is as given and the walk ends.
pub struct Watch<'s> {
    pub root: &'s str,
    pub models: &'s [Ast<'s>],
    pub texts: &'s Texts<'s>,
    pub request: &'s Request<'s>,
}

impl<'s> Watch<'s> {
    /// Runs the steps; an error is the text that `build` returns where no model has the root name.
    pub fn steps(&self) -> Result<Watched, String> {
        ordered::take_made();
        let (mut info, model) = access::flattened(self.root, self.models)?;
        let made = ordered::take_made();
        let flats = info.stmts.iter().map(|s| extract::flat(s, self.texts));
        let statements = flats.collect();
        let addresses: Vec<_> = info.stmts.iter().map(extract::address).collect();
        let kept = self.stand_in(&info);
        access::allocate_stmts(&mut info, model);
        put_back(kept);
        let cells = access::variables(&info);
        let held: Vec<_> = cells.iter().map(|cell| held(cell, &addresses)).collect();
        let names: Vec<_> = cells.iter().map(|cell| cell.borrow().name).collect();
        let taken = self.taken(&names)?;
        let left = |s: &Option<usize>| s.is_some_and(|s| taken[s] == Taken::Left);
        let paired = cells.iter().zip(&held).filter(|(_, held)| left(held));
        let paired: Vec<_> = paired.map(|(cell, _)| cell.clone()).collect();
        let watched = Watched {
            info: info::info(&info, self.texts),
            paired: info::numbers(&info, &paired),
            report: Report {
                built: extract::built(&info, self.texts, self.request.walks),
                statements,
                taken,
                held,
                instances: (made > 0).then_some(made),
            },
        };
        release(&info);
        Ok(watched)
    }

    /// What becomes of each statement, in a second run that calls `allocate_stmt` on one after the other.
    fn taken(&self, names: &[&str]) -> Result<Vec<Taken>, String> {
        let (mut info, _) = access::flattened(self.root, self.models)?;
        let kept = self.stand_in(&info);
        let cells = access::variables(&info);
        let number = |cell: &Cell| {
            let place = names.iter().position(|name| *name == cell.borrow().name);
            place.expect("a variable of both runs")
        };
        let mut conditions = vec![0; cells.len()];
        let mut taken = Vec::new();
        for stmt in std::mem::take(&mut info.stmts) {
            let address = extract::address(&stmt);
            let left = access::allocate_stmt(&mut info, stmt).is_some();
            let now: Vec<_> = cells
                .iter()
                .map(|c| c.borrow().init_conditions.len())
                .collect();
            let grown = (0..cells.len()).find(|&c| now[c] > conditions[c]);
            let holds = |cell: &&Cell| {
                cell.borrow().equation.as_ref().map(extract::address) == Some(address)
            };
            taken.push(match (grown, left) {
                (Some(c), _) => Taken::Condition(number(&cells[c])),
                (None, true) => Taken::Left,
                (None, false) => Taken::Rate(number(cells.iter().find(holds).expect("a holder"))),
            });
            conditions = now;
        }
        put_back(kept);
        release(&info);
        Ok(taken)
    }

    /// Exchanges the dependents of the decided states for stand-ins of the same names; gives what was there.
    fn stand_in(&self, info: &ModelInfo<'s>) -> Vec<(Cell<'s>, Vec<Cell<'s>>)> {
        let cells = access::variables(info);
        let kept = self.request.decided.iter().map(|decided| {
            let name = self.texts.text(decided.name);
            let cell = cells
                .iter()
                .find(|cell| cell.borrow().name == name)
                .expect("a variable")
                .clone();
            let names: Vec<_> = cell
                .borrow()
                .dependents
                .iter()
                .map(|d| d.borrow().name)
                .collect();
            let stand_ins = names
                .into_iter()
                .map(|name| stand_in(name, decided.time_dependent))
                .collect();
            let own = std::mem::replace(&mut cell.borrow_mut().dependents, stand_ins);
            (cell, own)
        });
        kept.collect()
    }
}

/// The flattened statement that a variable holds, found by its address.
fn held(cell: &Cell, addresses: &[*const ()]) -> Option<usize> {
    let held = cell.borrow().equation.as_ref().map(extract::address)?;
    let place = addresses.iter().position(|address| *address == held);
    Some(place.expect("a flattened statement"))
}

/// A variable whose time-dependence is seen at once.
fn stand_in(name: &str, time_dependent: bool) -> Cell<'_> {
    let whole = (f64::NEG_INFINITY, f64::INFINITY);
    Rc::new(RefCell::new(Variable {
        name,
        time_gradient_name: String::new(),
        dim: 1,
        bounds: whole,
        equation: None,
        expression: None,
        dependents: Vec::new(),
        time_index: time_dependent.then_some(0),
        init_conditions: Vec::new(),
    }))
}

fn put_back<'s>(kept: Vec<(Cell<'s>, Vec<Cell<'s>>)>) {
    for (cell, dependents) in kept {
        cell.borrow_mut().dependents = dependents;
    }
}

/// Cuts cycles of dependents, which would never be freed.
pub fn release(info: &ModelInfo) {
    for cell in access::variables(info) {
        cell.borrow_mut().dependents.clear();
    }
}
