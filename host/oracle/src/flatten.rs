//! A model's flattened statements, level by level, as document 01 describes them.

use crate::reach;
use report::Flat;
use treefile::records::stmt;
use treefile::{File, Node};

/// The flattened statements of a model.
pub fn flatten(file: &File, model: usize) -> Vec<Flat> {
    let mut flat = Vec::new();
    for stmt in file.stmts_of(&file.models[model]) {
        if stmt.kind != stmt::SUBMODEL {
            let equation = stmt.kind == stmt::EQUATION;
            flat.push(Flat {
                kind: stmt.kind,
                name: stmt.name,
                left: if equation {
                    tree(file, stmt.left as usize).to_vec()
                } else {
                    Vec::new()
                },
                right: tree(file, stmt.right as usize).to_vec(),
                span: stmt.span,
            });
        } else if let Some(below) = reach::submodel(file, stmt) {
            let replacements = reach::replacements(file, stmt, below);
            let replacements: Vec<_> = replacements
                .iter()
                .map(|(name, top)| (*name, tree(file, *top)))
                .collect();
            flat.extend(flatten(file, below).into_iter().map(|inner| Flat {
                left: substitute(&inner.left, &replacements),
                right: substitute(&inner.right, &replacements),
                ..inner
            }));
        }
    }
    flat
}

/// The nodes of the tree with this top.
fn tree(file: &File, top: usize) -> &[Node] {
    &file.nodes[top + 1 - file.nodes[top].size as usize..=top]
}

/// A tree with names replaced at once. A replaced name keeps its own span.
fn substitute(tree: &[Node], replacements: &[(u32, &[Node])]) -> Vec<Node> {
    let mut out = Vec::new();
    let mut starts = Vec::new();
    for (i, node) in tree.iter().enumerate() {
        starts.push(out.len());
        let replacement = replacements.iter().find(|(name, _)| *name == node.name);
        match replacement.filter(|_| node.kind == treefile::records::node::NAME) {
            Some((_, nodes)) => {
                out.extend_from_slice(nodes);
                out.last_mut().expect("a tree has a node").span = node.span;
            }
            None => {
                let start = starts[i + 1 - node.size as usize];
                let size = (out.len() + 1 - start) as u32;
                out.push(Node { size, ..*node });
            }
        }
    }
    out
}
