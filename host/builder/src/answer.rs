//! A whole answer.

use crate::records::{Bounds, Equation, Error, Fate, Node, Statement, Variable};

/// What an answer area holds, section by section.
#[derive(Clone, Debug)]
pub struct Answer {
    /// 1 for the root, and those of each submodel statement whose model is found.
    pub instances: u32,
    pub time: Bounds,
    pub nodes: Vec<Node>,
    pub statements: Vec<Statement>,
    pub variables: Vec<Variable>,
    /// Variable numbers, in the runs that the variables name.
    pub dependents: Vec<u32>,
    /// All errors; only the first 256 are listed.
    pub error_count: u32,
    pub errors: Vec<Error>,
    /// The bytes used.
    pub bytes: usize,
}

impl Answer {
    /// Whether there is no error, so that the promise on answers without errors holds of it.
    pub fn is_clean(&self) -> bool {
        self.error_count == 0
    }

    /// The variables that a variable depends on.
    pub fn dependents_of(&self, variable: &Variable) -> &[u32] {
        let first = variable.first_dependent as usize;
        &self.dependents[first..first + variable.dependents as usize]
    }

    /// How many statements have each fate: initial condition, held, replaced, left over.
    pub fn fates(&self) -> [usize; 4] {
        let with = |number: u32| {
            let same = |s: &&Statement| s.fate.number() == number;
            self.statements.iter().filter(same).count()
        };
        [1, 2, 3, 4].map(with)
    }

    /// The numbers of the initial conditions of a variable, in order.
    pub fn initial_conditions_of(&self, variable: u32) -> Vec<u32> {
        let numbers = 0..self.statements.len() as u32;
        let is_its =
            |s: &u32| self.statements[*s as usize].fate == Fate::InitialCondition(variable);
        numbers.filter(is_its).collect()
    }

    /// The largest name number that any record bears. A tree file that this answer is of has more names.
    pub fn largest_name(&self) -> Option<u32> {
        let nodes = self.nodes.iter().filter_map(|node| node.name());
        let rates = self.statements.iter().filter_map(|s| match s.equation {
            Equation::Plain { .. } => None,
            Equation::Rate { name, .. } => Some(name),
        });
        let variables = self.variables.iter().filter_map(|v| v.name);
        let errors = self.errors.iter().filter_map(|e| e.name);
        nodes.chain(rates).chain(variables).chain(errors).max()
    }

    /// The child nodes of a node, in order.
    pub fn children(&self, node: u32) -> Vec<u32> {
        let mut end = node;
        let mut found = Vec::new();
        for _ in 0..self.nodes[node as usize].child_count() {
            found.push(end - 1);
            end -= self.nodes[end as usize - 1].size;
        }
        found.reverse();
        found
    }
}
