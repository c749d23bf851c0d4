//! The rules of nodes and trees: children stand directly before their parent, and sizes count a node and all below it.

use crate::records::{Equation, Node, NodeKind, Statement};

impl Node {
    /// How many children it has.
    pub fn child_count(&self) -> u32 {
        match self.kind {
            NodeKind::Name(_) | NodeKind::Number(_) => 0,
            NodeKind::Unary(_) | NodeKind::Argument(_) => 1,
            NodeKind::Binary(_) => 2,
            NodeKind::Call { arguments, .. } => arguments,
        }
    }

    /// The name that it bears, an argument's being its keyword.
    pub fn name(&self) -> Option<u32> {
        match self.kind {
            NodeKind::Name(name) | NodeKind::Call { name, .. } => Some(name),
            NodeKind::Argument(keyword) => keyword,
            _ => None,
        }
    }

    fn is_argument(&self) -> bool {
        matches!(self.kind, NodeKind::Argument(_))
    }
}

/// Whether the nodes before node `i` are its children: arguments of a call, expressions of all others.
pub(crate) fn node_fits(nodes: &[Node], i: usize) -> bool {
    let node = &nodes[i];
    let wants_arguments = matches!(node.kind, NodeKind::Call { .. });
    if node.child_count() as usize > i {
        return false;
    }
    let mut end = i;
    for _ in 0..node.child_count() {
        let Some(child) = end.checked_sub(1).map(|last| &nodes[last]) else {
            return false;
        };
        if child.is_argument() != wants_arguments || child.size as usize > end {
            return false;
        }
        end -= child.size as usize;
    }
    node.size as usize == i + 1 - end
}

/// Whether the statements' trees, left before right, fill the nodes in order.
pub(crate) fn trees_fill(nodes: &[Node], statements: &[Statement]) -> bool {
    let mut end = 0;
    for statement in statements {
        let tops = match statement.equation {
            Equation::Plain { left, right } => vec![left, right],
            Equation::Rate { right, .. } => vec![right],
        };
        for top in tops {
            let Some(node) = nodes.get(top as usize) else {
                return false;
            };
            if node.is_argument() || top as usize + 1 != end + node.size as usize {
                return false;
            }
            end = top as usize + 1;
        }
    }
    end == nodes.len()
}
