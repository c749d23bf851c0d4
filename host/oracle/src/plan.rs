//! What document 01 says of a build before the original is run: the refusals and whether the original can be run at all.

use crate::measure::{self, Sizes};
use crate::variables::{self, Variable};
use crate::{flatten, reach};
use report::{Decided, Flat};
use treefile::records::{node, stmt};
use treefile::File;

/// Calls after which the original's walk for time-dependence counts as endless.
const ENDLESS: u32 = 100_000;
/// Calls up to which the original is asked for the time-dependence of a variable.
const SHORT: u32 = 2_000;

/// A build of a model that is found and from which no model is reached from itself.
#[derive(Clone, Debug)]
pub struct Plan {
    pub model: usize,
    pub sizes: Sizes,
    /// Refusal 7.
    pub self_listed: bool,
    /// Refusal 8.
    pub overfull: bool,
    pub variables: Vec<Variable>,
    pub flattened: Option<Flattened>,
}

/// Present where neither 7 nor 8 holds and the sizes are not far over the most.
#[derive(Clone, Debug)]
pub struct Flattened {
    pub statements: Vec<Flat>,
    /// Refusal 10.
    pub short: bool,
    /// The states with a rate equation on which the original's walk for time-dependence does not end, decided by reaching.
    pub decided: Vec<Decided>,
}

/// What can be said before the original is run.
#[derive(Clone, Debug)]
pub enum Prospect {
    /// Refusal 5.
    NoRoot,
    /// Refusal 6: the original overflows its stack.
    Cyclic,
    Plan(Plan),
}

impl Plan {
    /// The refusals 7, 8, 9 and 10, the first that holds.
    pub fn refusal(&self) -> Option<u32> {
        let short = self.flattened.as_ref().is_some_and(|flat| flat.short);
        let conditions = [
            (7, self.self_listed),
            (8, self.overfull),
            (9, self.sizes.over()),
            (10, short),
        ];
        conditions
            .iter()
            .find(|(_, holds)| *holds)
            .map(|(number, _)| *number)
    }

    /// The variables whose time-dependence the original can be asked for.
    pub fn walks(&self) -> Vec<Option<u32>> {
        let ends = |v: &usize| variables::walk(&self.variables, *v, SHORT).is_some();
        let numbers = (0..self.variables.len()).filter(ends);
        numbers.map(|v| self.variables[v].name).collect()
    }

    /// The states to decide before the original is run.
    pub fn decided(&self) -> &[Decided] {
        self.flattened.as_ref().map_or(&[], |flat| &flat.decided)
    }
}

/// Looks ahead; an error is a disagreement of two ways to count.
pub fn prospect(file: &File, root: &[u8]) -> Result<Prospect, String> {
    let Some(model) = reach::root(file, root) else {
        return Ok(Prospect::NoRoot);
    };
    let models = reach::reached(file, model);
    if reach::cyclic(file, &models) {
        return Ok(Prospect::Cyclic);
    }
    let mut plan = Plan {
        model,
        sizes: measure::sizes(file, model),
        self_listed: reach::self_listed(file, &models),
        overfull: reach::overfull(file, &models),
        variables: variables::variables(file, model),
        flattened: None,
    };
    if !plan.self_listed && !plan.overfull && !plan.sizes.far_over() {
        plan.flattened = Some(flattened(file, &plan)?);
    }
    Ok(Prospect::Plan(plan))
}

fn flattened(file: &File, plan: &Plan) -> Result<Flattened, String> {
    let statements = flatten::flatten(file, plan.model);
    let nodes: usize = statements
        .iter()
        .map(|s| s.left.len() + s.right.len())
        .sum();
    if (nodes as u64, statements.len() as u64) != (plan.sizes.nodes, plan.sizes.statements) {
        let found = (nodes, statements.len());
        return Err(format!(
            "sizes counted {:?}, flattened {found:?}",
            plan.sizes
        ));
    }
    let short = statements
        .iter()
        .any(|statement| is_short(&plan.variables, statement));
    let decided = decided(&plan.variables, &statements)?;
    Ok(Flattened {
        statements,
        short,
        decided,
    })
}

/// Whether the left side is a call by a variable's name with too few arguments to reach its time index.
fn is_short(variables: &[Variable], statement: &Flat) -> bool {
    let call = statement.left.last().filter(|top| top.kind == node::CALL);
    call.is_some_and(|call| {
        let variable = variables::find(variables, call.name).map(|v| &variables[v]);
        let time_index = variable.and_then(|v| v.time_index);
        time_index.is_some_and(|index| index >= call.op as usize)
    })
}

fn decided(variables: &[Variable], statements: &[Flat]) -> Result<Vec<Decided>, String> {
    let mut decided: Vec<Decided> = Vec::new();
    for rate in statements.iter().filter(|s| s.kind == stmt::RATE) {
        let state =
            variables::find(variables, rate.name).filter(|v| !variables[*v].dependents.is_empty());
        let Some(v) = state.filter(|_| decided.iter().all(|d| d.name != rate.name)) else {
            continue;
        };
        let time_dependent = variables::reaches_time(variables, v);
        match variables::walk(variables, v, ENDLESS) {
            None => decided.push(Decided {
                name: rate.name,
                time_dependent,
            }),
            Some(walked) if walked != time_dependent => {
                return Err(format!("variable {v}: walk and reaching differ"))
            }
            Some(_) => (),
        }
    }
    Ok(decided)
}
