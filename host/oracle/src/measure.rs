//! The sizes of a build that refusal 9 looks at, counted without flattening, so that blow-ups can be counted too. Sums
//! and products stop at the largest number.

use crate::reach;
use std::collections::BTreeMap;
use treefile::records::{node, stmt};
use treefile::File;

/// The sizes of a build.
#[derive(Clone, Copy, Debug, PartialEq, Eq)]
pub struct Sizes {
    pub instances: u64,
    pub statements: u64,
    pub nodes: u64,
}

impl Sizes {
    /// Refusal 9.
    pub fn over(&self) -> bool {
        self.instances > 1024 || self.nodes > 1024 || self.statements > 256
    }

    /// Whether it would take too long to run the original.
    pub fn far_over(&self) -> bool {
        self.instances > 4096 || self.nodes > 20_000 || self.statements > 20_000
    }
}

/// The sizes of a build of this model; no model may be reached from itself.
pub fn sizes(file: &File, model: usize) -> Sizes {
    let mut known = vec![None; file.models.len()];
    let counts = counts(file, model, &mut known);
    let names = counts
        .trees
        .names
        .values()
        .fold(0u64, |sum, n| sum.saturating_add(*n));
    Sizes {
        instances: counts.instances,
        statements: counts.statements,
        nodes: counts.trees.others.saturating_add(names),
    }
}

#[derive(Clone, Default)]
struct Counts {
    instances: u64,
    statements: u64,
    trees: Trees,
}

/// Nodes of some trees: how often each name stands there as an expression, and how many other nodes there are.
#[derive(Clone, Default)]
struct Trees {
    names: BTreeMap<u32, u64>,
    others: u64,
}

impl Trees {
    /// The tree below a node.
    fn at(file: &File, top: usize) -> Trees {
        let size = file.nodes[top].size as usize;
        let mut trees = Trees::default();
        for node in &file.nodes[top + 1 - size..=top] {
            match node.kind {
                node::NAME => *trees.names.entry(node.name).or_default() += 1,
                _ => trees.others += 1,
            }
        }
        trees
    }

    fn add(&mut self, more: &Trees, times: u64) {
        self.others = self
            .others
            .saturating_add(more.others.saturating_mul(times));
        for (name, count) in &more.names {
            let sum = self.names.entry(*name).or_default();
            *sum = sum.saturating_add(count.saturating_mul(times));
        }
    }

    /// These trees with names replaced.
    fn replaced(&self, file: &File, replacements: &[(u32, usize)]) -> Trees {
        let mut trees = Trees {
            names: BTreeMap::new(),
            others: self.others,
        };
        for (name, count) in &self.names {
            match replacements.iter().find(|(other, _)| other == name) {
                Some((_, top)) => trees.add(&Trees::at(file, *top), *count),
                None => trees.add(
                    &Trees {
                        names: BTreeMap::from([(*name, 1)]),
                        others: 0,
                    },
                    *count,
                ),
            }
        }
        trees
    }
}

fn counts(file: &File, model: usize, known: &mut Vec<Option<Counts>>) -> Counts {
    if let Some(counts) = &known[model] {
        return counts.clone();
    }
    let mut sum = Counts {
        instances: 1,
        ..Counts::default()
    };
    for stmt in file.stmts_of(&file.models[model]) {
        if stmt.kind != stmt::SUBMODEL {
            sum.statements = sum.statements.saturating_add(1);
            sum.trees.add(&Trees::at(file, stmt.right as usize), 1);
            if stmt.kind == stmt::EQUATION {
                sum.trees.add(&Trees::at(file, stmt.left as usize), 1);
            }
        } else if let Some(below) = reach::submodel(file, stmt) {
            let more = counts(file, below, known);
            let replacements = reach::replacements(file, stmt, below);
            sum.instances = sum.instances.saturating_add(more.instances);
            sum.statements = sum.statements.saturating_add(more.statements);
            sum.trees.add(&more.trees.replaced(file, &replacements), 1);
        }
    }
    known[model] = Some(sum.clone());
    sum
}
