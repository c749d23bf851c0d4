//! The original with its own map against the original with the ordered one: what must be equal whatever the order is.

use crate::judge::check_outcome;
use crate::plan::{prospect, Prospect};
use report::{Error, Outcome, Report, Request, Taken, Variable};
use std::collections::BTreeSet;
use treefile::File;

/// A run of the original.
#[derive(Clone, Debug, PartialEq, Eq)]
pub enum Run {
    Ended(Outcome),
    /// A model is reached from itself, or a walk for time-dependence does not end.
    Endless,
    TooBig,
}

/// The unmodified original on a file and root name. To be called in [`crate::deep::call`].
pub fn report_unmodified(file: &File, root: &[u8]) -> Result<Run, String> {
    report(file, root, rust_unmodified::run)
}

/// The original with the ordered map on a file and root name. To be called in [`crate::deep::call`].
pub fn report_ordered(file: &File, root: &[u8]) -> Result<Run, String> {
    report(file, root, rust_ordered::run)
}

type Runner = fn(&File, &[u8], &Request) -> Result<Outcome, String>;

fn report(file: &File, root: &[u8], run: Runner) -> Result<Run, String> {
    let plan = match prospect(file, root)? {
        Prospect::NoRoot => return Ok(Run::Ended(run(file, root, &Request::PLAIN)?)),
        Prospect::Cyclic => return Ok(Run::Endless),
        Prospect::Plan(plan) => plan,
    };
    if plan.sizes.far_over() {
        return Ok(Run::TooBig);
    }
    if !plan.decided().is_empty() {
        return Ok(Run::Endless);
    }
    let outcome = run(file, root, &Request::PLAIN)?;
    check_outcome(&plan, &outcome)?;
    Ok(Run::Ended(outcome))
}

/// Whether two outcomes are equal but for the order of variables and what hangs on it.
pub fn same_up_to_order(ordered: &Outcome, unmodified: &Outcome) -> Result<(), String> {
    match (ordered, unmodified) {
        (Outcome::Built(ordered), Outcome::Built(unmodified)) => same_reports(ordered, unmodified),
        _ if ordered == unmodified => Ok(()),
        _ => Err(format!("ordered {ordered:?}, unmodified {unmodified:?}")),
    }
}

fn same_reports(ordered: &Report, unmodified: &Report) -> Result<(), String> {
    let same = |what: &str, holds: bool| {
        holds
            .then_some(())
            .ok_or_else(|| format!("{what} differs by order"))
    };
    same(
        "the count of variables",
        ordered.held.len() == unmodified.held.len(),
    )?;
    same("time", ordered.built.time == unmodified.built.time)?;
    same(
        "a flattened statement",
        ordered.statements == unmodified.statements,
    )?;
    let (a, b) = (View(ordered), View(unmodified));
    same("a variable", a.variables() == b.variables())?;
    same("what is taken", a.taken() == b.taken())?;
    same("a rate equation held", a.own_rates() == b.own_rates())?;
    same(
        "a paired statement",
        a.paired_statements() == b.paired_statements(),
    )?;
    same("a paired state", a.paired_states() == b.paired_states())?;
    let left_out = if a.mixed() {
        a.paired_states()
    } else {
        BTreeSet::new()
    };
    same("an error", a.errors(&left_out) == b.errors(&left_out))
}

/// A report seen through names, so that the order of variables does not show. t where unnamed is `None`.
struct View<'r>(&'r Report);

type Name = Option<u32>;

impl View<'_> {
    fn name(&self, v: usize) -> Name {
        self.0.built.variables[v].name
    }

    /// The variables without their equations, by name.
    fn variables(&self) -> Vec<(Name, Vec<Name>, Variable)> {
        let plain = |v: &Variable| Variable {
            dependents: Vec::new(),
            equation: None,
            time_dependent: None,
            ..v.clone()
        };
        let view = |v: &Variable| {
            (
                v.name,
                v.dependents.iter().map(|d| self.name(*d)).collect(),
                plain(v),
            )
        };
        let mut variables: Vec<_> = self.0.built.variables.iter().map(view).collect();
        variables.sort_by_key(|(name, _, _)| *name);
        variables
    }

    /// For each statement the initial condition's or rate equation's variable.
    fn taken(&self) -> Vec<(u32, Name)> {
        let view = |taken: &Taken| match taken {
            Taken::Condition(v) => (1, self.name(*v)),
            Taken::Rate(v) => (2, self.name(*v)),
            Taken::Left => (3, None),
        };
        self.0.taken.iter().map(view).collect()
    }

    /// The variables that hold a statement, with it, by whether it was left and paired.
    fn held(&self, paired: bool) -> impl Iterator<Item = (Name, usize)> + '_ {
        let pairs = self.0.held.iter().enumerate();
        let pairs = pairs.filter_map(|(v, held)| held.map(|s| (self.name(v), s)));
        pairs.filter(move |(_, s)| (self.0.taken[*s] == Taken::Left) == paired)
    }

    fn own_rates(&self) -> BTreeSet<(Name, usize)> {
        self.held(false).collect()
    }

    fn paired_statements(&self) -> BTreeSet<usize> {
        self.held(true).map(|(_, s)| s).collect()
    }

    fn paired_states(&self) -> BTreeSet<Name> {
        self.held(true).map(|(name, _)| name).collect()
    }

    /// Whether statements of both kinds are paired, so that it hangs on the order which state holds a rate equation.
    fn mixed(&self) -> bool {
        let kind = |s: usize| self.0.statements[s].kind;
        self.held(true)
            .map(|(_, s)| kind(s))
            .collect::<BTreeSet<_>>()
            .len()
            > 1
    }

    /// The errors in order up to the last pass over the variables, then those of that pass sorted.
    fn errors(&self, left_out: &BTreeSet<Name>) -> (Vec<Error>, Vec<Error>) {
        let last = |error: &Error| error.kind == 16 || error.kind == 17;
        let (mut pass, steps): (Vec<Error>, Vec<Error>) =
            self.0.built.errors.iter().partition(|e| last(e));
        pass.retain(|error| !left_out.contains(&error.name));
        pass.sort();
        (steps, pass)
    }
}
