//! From records to an area's bytes.

use crate::layout::MOST_LISTED;
use crate::records::{Area, AreaError, AreaStmt, AreaVariable};
use treefile::{Node, Span};

impl Area {
    /// The bytes used.
    pub fn to_bytes(&self) -> Vec<u8> {
        let mut out = Words(Vec::new());
        self.put_header(&mut out);
        self.nodes.iter().for_each(|node| put_node(node, &mut out));
        self.stmts.iter().for_each(|stmt| stmt.put(&mut out));
        self.variables.iter().for_each(|v| v.put(&mut out));
        self.dependents.iter().for_each(|d| out.word(*d));
        let listed = self.errors.iter().take(MOST_LISTED);
        listed.for_each(|error| error.put(&mut out));
        out.0
    }

    fn put_header(&self, out: &mut Words) {
        out.word(self.nodes.len() as u32);
        out.word(self.stmts.len() as u32);
        out.word(self.variables.len() as u32);
        out.word(self.dependents.len() as u32);
        out.word(self.errors.len() as u32);
        out.word(self.instances);
        self.time.iter().for_each(|bound| out.long(*bound));
    }
}

fn put_node(node: &Node, out: &mut Words) {
    out.word(node.kind);
    out.word(node.name);
    out.word(node.op);
    out.word(node.size);
    out.span(node.span);
    out.long(node.number);
}

impl AreaStmt {
    fn put(&self, out: &mut Words) {
        out.word(self.stmt.kind);
        out.word(self.stmt.name);
        out.word(self.stmt.left);
        out.word(self.stmt.right);
        out.span(self.stmt.span);
        out.word(self.fate);
        out.word(self.variable);
    }
}

impl AreaVariable {
    fn put(&self, out: &mut Words) {
        out.word(self.name);
        out.word(self.state as u32);
        out.word(self.time_index);
        out.word(self.first);
        out.word(self.count);
        out.word(self.held);
        out.word(self.conditions);
        out.word(self.time_dependent as u32);
        self.bounds.iter().for_each(|bound| out.long(*bound));
    }
}

impl AreaError {
    fn put(&self, out: &mut Words) {
        out.word(self.kind);
        out.span(self.span);
        out.word(self.name);
    }
}

/// Bytes written word by word.
struct Words(Vec<u8>);

impl Words {
    fn word(&mut self, word: u32) {
        self.0.extend(word.to_le_bytes());
    }

    fn long(&mut self, long: u64) {
        self.0.extend(long.to_le_bytes());
    }

    fn span(&mut self, span: Span) {
        self.word(span.start);
        self.word(span.end);
    }
}
