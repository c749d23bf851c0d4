//! Errors with the names that document 01 lists. A second run, in which each span says its record, tells where an error
//! comes from; the names found there must agree with those in the messages.

use area::AreaError;
use report::{Error, Origin};
use treefile::records::{domain, node, stmt};
use treefile::{File, Span};

/// The errors for the area from a run with the file's spans and one with origins.
pub fn errors(
    file: &File,
    root: usize,
    own: &[Error],
    origins: &[Error],
) -> Result<Vec<AreaError>, String> {
    if own.len() != origins.len() {
        return Err(format!(
            "{} errors with spans, {} with origins",
            own.len(),
            origins.len()
        ));
    }
    let pairs = own.iter().zip(origins);
    pairs
        .map(|(own, origin)| error(file, root, own, origin))
        .collect()
}

fn error(file: &File, root: usize, own: &Error, marked: &Error) -> Result<AreaError, String> {
    let (start, end) = marked.span;
    let origin = Origin::of_span(Span { start, end });
    let fail = || format!("error {own:?} does not fit its origin {origin:?} {marked:?}");
    let found = origin
        .and_then(|origin| source(file, root, own, origin))
        .ok_or_else(fail)?;
    let fits = (found.span.start, found.span.end) == own.span
        && own.kind == marked.kind
        && own.name == marked.name;
    let named = own.name.is_none() || own.name == found.name;
    if !fits || !named || (own.kind != 7 && own.name.is_none() != found.name.is_none()) {
        return Err(fail());
    }
    Ok(AreaError {
        kind: own.kind,
        span: found.span,
        name: found.name.map_or(0, |name| name + 1),
    })
}

struct Source {
    span: Span,
    name: Option<u32>,
}

/// Span and name of an error by the record that it comes from, or `None` where the kind does not fit the record.
fn source(file: &File, root: usize, error: &Error, origin: Origin) -> Option<Source> {
    match origin {
        Origin::Node(i) => of_node(file, error, i),
        Origin::Unknown(i) => {
            let unknown = &file.unknowns[i];
            let name = match error.kind {
                1 if unknown.domain == domain::NAMED => unknown.lower as u32,
                2 => unknown.name,
                _ => return None,
            };
            Some(Source {
                span: unknown.span,
                name: Some(name),
            })
        }
        Origin::Stmt(i) => {
            let stmt = &file.stmts[i];
            let name = match (error.kind, stmt.kind) {
                (3, stmt::SUBMODEL) => file.nodes[stmt.right as usize].name,
                (5 | 13, stmt::RATE) => stmt.name,
                _ => return None,
            };
            Some(Source {
                span: stmt.span,
                name: Some(name),
            })
        }
        Origin::Model(i) => {
            let name = match error.kind {
                14 | 15 => None,
                16 => error.name,
                _ => return None,
            };
            (i == root).then_some(Source {
                span: file.models[i].span,
                name,
            })
        }
    }
}

fn of_node(file: &File, error: &Error, i: usize) -> Option<Source> {
    let node = &file.nodes[i];
    let name = match (error.kind, node.kind) {
        (4 | 10, node::ARGUMENT) => None,
        (5, node::NAME) | (6 | 8 | 11, node::CALL) => Some(node.name),
        (7 | 9, node::ARGUMENT) => Some(node.name.checked_sub(1)?),
        (12, node::ARGUMENT) => Some(file.nodes[call_of(file, i)?].name),
        (17, _) => error.name,
        _ => return None,
    };
    Some(Source {
        span: node.span,
        name,
    })
}

/// The call that an argument belongs to.
fn call_of(file: &File, argument: usize) -> Option<usize> {
    let above = |i: &usize| i + 1 - file.nodes[*i].size as usize <= argument;
    (argument + 1..file.nodes.len()).find(above)
}
