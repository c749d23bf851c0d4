//! Records in and out of little-endian words.

use crate::records::{File, Model, Name, Node, Span, Stmt, Unknown};

/// Reads words one after another; past the end they are 0.
pub(super) struct Words<'a> {
    rest: std::slice::ChunksExact<'a, u8>,
}

impl<'a> Words<'a> {
    pub(super) fn new(bytes: &'a [u8]) -> Self {
        Words {
            rest: bytes.chunks_exact(4),
        }
    }

    pub(super) fn word(&mut self) -> u32 {
        match self.rest.next() {
            Some(b) => u32::from_le_bytes([b[0], b[1], b[2], b[3]]),
            None => 0,
        }
    }

    fn long(&mut self) -> u64 {
        let low = self.word();
        u64::from(self.word()) << 32 | u64::from(low)
    }

    fn span(&mut self) -> Span {
        Span {
            start: self.word(),
            end: self.word(),
        }
    }

    fn many<T>(&mut self, count: u32, one: fn(&mut Self) -> T) -> Vec<T> {
        (0..count).map(|_| one(self)).collect()
    }
}

/// The records of a file whose length agrees with the counts.
pub(super) fn records(bytes: &[u8], counts: &[u32; 7]) -> File {
    let (text, rest) = bytes.split_at(counts[0] as usize);
    let mut words = Words::new(rest);
    File {
        text: text.to_vec(),
        names: words.many(counts[1], name),
        nodes: words.many(counts[2], node),
        dependents: words.many(counts[3], Words::word),
        unknowns: words.many(counts[4], unknown),
        stmts: words.many(counts[5], stmt),
        models: words.many(counts[6], model),
    }
}

fn name(w: &mut Words) -> Name {
    Name {
        start: w.word(),
        len: w.word(),
    }
}

fn node(w: &mut Words) -> Node {
    Node {
        kind: w.word(),
        name: w.word(),
        op: w.word(),
        size: w.word(),
        span: w.span(),
        number: w.long(),
    }
}

fn unknown(w: &mut Words) -> Unknown {
    Unknown {
        name: w.word(),
        first: w.word(),
        count: w.word(),
        domain: w.word(),
        lower: w.long(),
        upper: w.long(),
        span: w.span(),
    }
}

fn stmt(w: &mut Words) -> Stmt {
    Stmt {
        kind: w.word(),
        name: w.word(),
        left: w.word(),
        right: w.word(),
        span: w.span(),
    }
}

fn model(w: &mut Words) -> Model {
    Model {
        name: w.word(),
        first_unknown: w.word(),
        unknowns: w.word(),
        first_stmt: w.word(),
        stmts: w.word(),
        span: w.span(),
    }
}

/// Writes one word.
pub(super) fn put(out: &mut Vec<u8>, word: u32) {
    out.extend_from_slice(&word.to_le_bytes());
}

fn put_all(out: &mut Vec<u8>, words: &[u32]) {
    for word in words {
        put(out, *word);
    }
}

fn low(long: u64) -> u32 {
    long as u32
}

fn high(long: u64) -> u32 {
    (long >> 32) as u32
}

/// Writes every section but the text.
pub(super) fn put_records(out: &mut Vec<u8>, file: &File) {
    for n in &file.names {
        put_all(out, &[n.start, n.len]);
    }
    for n in &file.nodes {
        put_all(out, &[n.kind, n.name, n.op, n.size]);
        put_all(out, &[n.span.start, n.span.end]);
        put_all(out, &[low(n.number), high(n.number)]);
    }
    put_all(out, &file.dependents);
    for u in &file.unknowns {
        put_all(out, &[u.name, u.first, u.count, u.domain]);
        put_all(out, &[low(u.lower), high(u.lower)]);
        put_all(out, &[low(u.upper), high(u.upper)]);
        put_all(out, &[u.span.start, u.span.end]);
    }
    for s in &file.stmts {
        put_all(out, &[s.kind, s.name, s.left, s.right]);
        put_all(out, &[s.span.start, s.span.end]);
    }
    for m in &file.models {
        put_all(out, &[m.name, m.first_unknown, m.unknowns]);
        put_all(out, &[m.first_stmt, m.stmts]);
        put_all(out, &[m.span.start, m.span.end]);
    }
}
