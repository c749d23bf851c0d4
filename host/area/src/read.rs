//! From an answer's words to records. A flag that is not 1 is read as not set; nothing else is lost, and nothing checked.

use crate::records::{Area, AreaError, AreaStmt, AreaVariable};
use crate::sections::Sections;
use treefile::{Node, Span, Stmt};

impl Area {
    /// What an answer holds, its errors those that are listed.
    pub fn of(sections: &Sections) -> Area {
        let header = sections.header();
        Area {
            instances: header[5],
            time: longs(&header[6..]),
            nodes: sections.nodes().map(node).collect(),
            stmts: sections.stmts().map(stmt).collect(),
            variables: sections.variables().map(variable).collect(),
            dependents: sections.dependents().to_vec(),
            errors: sections.errors().map(error).collect(),
        }
    }
}

/// Two words as one, low first.
fn long(w: &[u32]) -> u64 {
    u64::from(w[0]) | u64::from(w[1]) << 32
}

fn longs(w: &[u32]) -> [u64; 2] {
    [long(&w[..2]), long(&w[2..])]
}

fn span(w: &[u32]) -> Span {
    Span {
        start: w[0],
        end: w[1],
    }
}

fn node(w: &[u32]) -> Node {
    Node {
        kind: w[0],
        name: w[1],
        op: w[2],
        size: w[3],
        span: span(&w[4..]),
        number: long(&w[6..]),
    }
}

fn stmt(w: &[u32]) -> AreaStmt {
    AreaStmt {
        stmt: Stmt {
            kind: w[0],
            name: w[1],
            left: w[2],
            right: w[3],
            span: span(&w[4..]),
        },
        fate: w[6],
        variable: w[7],
    }
}

fn variable(w: &[u32]) -> AreaVariable {
    AreaVariable {
        name: w[0],
        state: w[1] == 1,
        time_index: w[2],
        first: w[3],
        count: w[4],
        held: w[5],
        conditions: w[6],
        time_dependent: w[7] == 1,
        bounds: longs(&w[8..]),
    }
}

fn error(w: &[u32]) -> AreaError {
    AreaError {
        kind: w[0],
        span: span(&w[1..]),
        name: w[3],
    }
}
