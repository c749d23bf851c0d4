//! The statements that go in: those of the root, and of each submodel in place of its statement, one instance after
//! another. Counted from the tree file alone.

use treefile::records::stmt;
use treefile::File;

/// Where a flattened statement comes from: a statement of a model, by their numbers in the file.
#[derive(Clone, Copy, Debug, PartialEq, Eq)]
pub struct Origin {
    pub model: usize,
    pub stmt: usize,
}

/// What goes into a build.
#[derive(Clone, Debug, Default, PartialEq, Eq)]
pub struct StatementsIn {
    /// The equations and rate equations of every instance, in order.
    pub equations: Vec<Origin>,
    /// Submodel statements whose model is found.
    pub submodels: usize,
    /// Submodel statements whose model is not in the file.
    pub missing: usize,
}

impl StatementsIn {
    /// Every statement record of every instance.
    pub fn records(&self) -> usize {
        self.equations.len() + self.submodels + self.missing
    }

    /// The root, and one for each submodel statement whose model is found.
    pub fn instances(&self) -> usize {
        1 + self.submodels
    }
}

/// Instances and statements beyond which a build is refused, so that no answer has as many.
const MOST: usize = 2_000;

/// What goes into the build of a root model; nothing where the file has no such model, a model reaches itself, or there
/// is more than any accepted build has.
pub fn statements_in(file: &File, root: &[u8]) -> Option<StatementsIn> {
    let mut found = StatementsIn::default();
    let model = file.models.iter().position(|m| file.name(m.name) == root)?;
    add(file, model, file.models.len(), &mut found)?;
    Some(found)
}

/// Adds one instance of a model, which may go so many models deep.
fn add(file: &File, model: usize, depth: usize, found: &mut StatementsIn) -> Option<()> {
    let depth = depth.checked_sub(1)?;
    let run = &file.models[model];
    for i in run.first_stmt as usize..(run.first_stmt + run.stmts) as usize {
        if file.stmts[i].kind != stmt::SUBMODEL {
            found.equations.push(Origin { model, stmt: i });
            continue;
        }
        let called = file.nodes[file.stmts[i].right as usize].name;
        match file.models.iter().position(|m| m.name == called) {
            None => found.missing += 1,
            Some(submodel) => {
                found.submodels += 1;
                add(file, submodel, depth, found)?;
            }
        }
        if found.records() > MOST {
            return None;
        }
    }
    (found.records() <= MOST).then_some(())
}
