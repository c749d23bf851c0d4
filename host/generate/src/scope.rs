//! What a model's declarations make of its names.

use crate::vocabulary::{BUILT_INS, RESERVED, TABLE_ONLY};
use treefile::source::{Domain, Model, Unknown};

/// A variable of a model.
#[derive(Clone, Debug)]
pub struct Var {
    pub name: Vec<u8>,
    /// Its dependents that are variables.
    pub kept: Vec<Vec<u8>>,
}

impl Var {
    /// The place of the last t among the kept dependents.
    pub fn time_index(&self) -> Option<usize> {
        self.kept.iter().rposition(|d| d == b"t")
    }

    /// Whether the variable has kept dependents.
    pub fn is_state(&self) -> bool {
        !self.kept.is_empty()
    }

    /// Whether the name is a built-in.
    pub fn is_built_in(&self) -> bool {
        BUILT_INS.iter().any(|(name, _)| *name == self.name)
    }

    /// Whether a call with an argument for each kept dependent has a right count, whatever the name.
    pub fn is_callable(&self) -> bool {
        let mut known = BUILT_INS
            .iter()
            .chain(&TABLE_ONLY)
            .filter(|(name, _)| *name == self.name)
            .peekable();
        known.peek().is_none() || known.any(|(_, count)| *count == self.kept.len())
    }
}

/// The variables of a model, t first, and time's lower bound.
#[derive(Clone, Debug)]
pub struct Scope {
    pub vars: Vec<Var>,
    /// The bits of time's lower bound.
    pub lower: u64,
}

impl Scope {
    /// The scope of a model.
    pub fn of(model: &Model) -> Scope {
        let mut scope = Scope {
            vars: vec![Var {
                name: b"t".to_vec(),
                kept: Vec::new(),
            }],
            lower: 0,
        };
        for unknown in &model.unknowns {
            if scope.find(&unknown.name).is_none() && !RESERVED.contains(&&unknown.name[..]) {
                scope.vars.push(Var {
                    name: unknown.name.clone(),
                    kept: Vec::new(),
                });
            }
            if unknown.name == b"t" {
                scope.lower = lower(&unknown.domain);
            }
        }
        for unknown in &model.unknowns {
            scope.keep_dependents(unknown);
        }
        scope
    }

    fn keep_dependents(&mut self, unknown: &Unknown) {
        let dependents = unknown.dependents.iter();
        let mut kept: Vec<Vec<u8>> = dependents
            .filter(|d| self.find(d).is_some())
            .cloned()
            .collect();
        if let Some(at) = self.find(&unknown.name) {
            self.vars[at].kept.append(&mut kept);
        }
    }

    /// The number of the variable with this name.
    pub fn find(&self, name: &[u8]) -> Option<usize> {
        self.vars.iter().position(|v| v.name == name)
    }

    /// The names of all variables.
    pub fn names(&self) -> Vec<Vec<u8>> {
        self.vars.iter().map(|v| v.name.clone()).collect()
    }

    /// The variables that have kept dependents.
    pub fn states(&self) -> Vec<Var> {
        self.vars.iter().filter(|v| v.is_state()).cloned().collect()
    }
}

/// The bits of the lower bound that a domain gives to time.
fn lower(domain: &Domain) -> u64 {
    match domain {
        Domain::None => 0,
        Domain::Range(lower, _) => *lower,
        Domain::Named(name) if name == b"NonNegative" => 0,
        Domain::Named(_) => f64::NEG_INFINITY.to_bits(),
    }
}
