//! The rules that each record of a tree file obeys.

use super::child_count;
use crate::records::{domain, node, stmt, File, Model, Name, Node, Span, Stmt, Unknown};
use std::collections::HashSet;

/// Whether every record of every section fits.
pub(super) fn file_fits(file: &File) -> bool {
    names_fit(file)
        && nodes_fit(file)
        && dependents_fit(file)
        && unknowns_fit(file)
        && stmts_fit(file)
        && models_fit(file)
}

/// The start is at most the end. A missing span has two equal words and fits too.
fn span_fits(span: Span) -> bool {
    span.start <= span.end
}

fn is_name(file: &File, n: u32) -> bool {
    (n as usize) < file.names.len()
}

/// Each name lies in the text and has a byte or more; no two have equal bytes.
fn names_fit(file: &File) -> bool {
    let mut seen = HashSet::new();
    file.names
        .iter()
        .all(|n| name_bytes(file, n).is_some_and(|bytes| !bytes.is_empty() && seen.insert(bytes)))
}

fn name_bytes<'a>(file: &'a File, name: &Name) -> Option<&'a [u8]> {
    let start = name.start as usize;
    file.text.get(start..start.checked_add(name.len as usize)?)
}

fn nodes_fit(file: &File) -> bool {
    (0..file.nodes.len()).all(|i| node_fits(file, i))
}

fn node_fits(file: &File, i: usize) -> bool {
    let n = &file.nodes[i];
    span_fits(n.span) && fields_fit(file, n) && tree_size(&file.nodes, i) == Some(n.size as usize)
}

/// The fields that a node's kind uses are in range, the others 0.
fn fields_fit(file: &File, n: &Node) -> bool {
    match n.kind {
        node::NAME => is_name(file, n.name) && n.op == 0 && n.number == 0,
        node::NUMBER => n.name == 0 && n.op == 0,
        node::BINARY => n.name == 0 && is_op(b"+-*/", n.op) && n.number == 0,
        node::UNARY => n.name == 0 && is_op(b"+-", n.op) && n.number == 0,
        node::CALL => is_name(file, n.name) && n.number == 0,
        node::ARGUMENT => n.name as usize <= file.names.len() && n.op == 0 && n.number == 0,
        _ => false,
    }
}

fn is_op(ops: &[u8], op: u32) -> bool {
    ops.iter().any(|byte| u32::from(*byte) == op)
}

/// What node `i` and its children come to, the children standing directly before it; nothing where a child is missing
/// or of the wrong kind.
fn tree_size(nodes: &[Node], i: usize) -> Option<usize> {
    let arguments = nodes[i].kind == node::CALL;
    let mut end = i;
    for _ in 0..child_count(&nodes[i]) {
        let child = &nodes[end.checked_sub(1)?];
        if (child.kind == node::ARGUMENT) != arguments || child.size == 0 {
            return None;
        }
        end = end.checked_sub(child.size as usize)?;
    }
    Some(i - end + 1)
}

fn dependents_fit(file: &File) -> bool {
    file.dependents.iter().all(|d| is_name(file, *d))
}

/// Adds a run to the running total of its section, if the run begins there.
fn add_run(total: u64, first: u32, count: u32) -> Option<u64> {
    (u64::from(first) == total).then(|| total + u64::from(count))
}

fn unknowns_fit(file: &File) -> bool {
    let runs = file
        .unknowns
        .iter()
        .try_fold(0, |total, u| add_run(total, u.first, u.count));
    runs == Some(file.dependents.len() as u64)
        && file.unknowns.iter().all(|u| unknown_fits(file, u))
}

fn unknown_fits(file: &File, u: &Unknown) -> bool {
    is_name(file, u.name) && span_fits(u.span) && domain_fits(file, u)
}

fn domain_fits(file: &File, u: &Unknown) -> bool {
    match u.domain {
        domain::NONE => u.lower == 0 && u.upper == 0,
        domain::RANGE => true,
        domain::NAMED => u.lower < file.names.len() as u64 && u.upper == 0,
        _ => false,
    }
}

/// Every statement fits and their trees, left before right, fill the nodes in order.
fn stmts_fit(file: &File) -> bool {
    let trees = file
        .stmts
        .iter()
        .try_fold(0, |total, s| add_stmt(file, total, s));
    trees == Some(file.nodes.len()) && file.stmts.iter().all(|s| span_fits(s.span))
}

/// Adds a statement's trees to the running total of nodes, if the statement fits.
fn add_stmt(file: &File, total: usize, s: &Stmt) -> Option<usize> {
    match s.kind {
        stmt::EQUATION if s.name == 0 => add_tree(file, add_tree(file, total, s.left)?, s.right),
        stmt::RATE if is_name(file, s.name) && s.left == 0 => add_tree(file, total, s.right),
        stmt::SUBMODEL if s.name == 0 && s.left == 0 => {
            let end = add_tree(file, total, s.right)?;
            (file.nodes[end - 1].kind == node::CALL).then_some(end)
        }
        _ => None,
    }
}

/// Adds the tree with this top to the running total of nodes, if it is an expression that begins there.
fn add_tree(file: &File, total: usize, top: u32) -> Option<usize> {
    let n = file.nodes.get(top as usize)?;
    let end = top as usize + 1;
    (n.kind != node::ARGUMENT && total + n.size as usize == end).then_some(end)
}

/// Every model fits and their runs fill the unknowns and the statements in order.
fn models_fit(file: &File) -> bool {
    let unknowns = file
        .models
        .iter()
        .try_fold(0, |total, m| add_run(total, m.first_unknown, m.unknowns));
    let stmts = file
        .models
        .iter()
        .try_fold(0, |total, m| add_run(total, m.first_stmt, m.stmts));
    unknowns == Some(file.unknowns.len() as u64)
        && stmts == Some(file.stmts.len() as u64)
        && file.models.iter().all(|m| model_fits(file, m))
}

fn model_fits(file: &File, m: &Model) -> bool {
    is_name(file, m.name) && span_fits(m.span)
}
