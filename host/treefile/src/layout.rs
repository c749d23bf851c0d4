//! Tree files as bytes: sections without gaps, then the trailer that points back.

mod bytes;
mod rules;
#[cfg(test)]
mod tests;

use crate::records::{node, File, Model, Stmt, Unknown, FORM, MOSTS, RECORD_BYTES, TRAILER};

/// Refusal: under 32 bytes, or the form is not 1.
pub const NO_FORM: u32 = 2;
/// Refusal: a count is over its most.
pub const OVER_MOST: u32 = 3;
/// Refusal: the length or a record breaks the layout.
pub const BROKEN_LAYOUT: u32 = 4;

impl File {
    /// The counts of the seven sections, text in bytes.
    pub fn counts(&self) -> [usize; 7] {
        [
            self.text.len(),
            self.names.len(),
            self.nodes.len(),
            self.dependents.len(),
            self.unknowns.len(),
            self.stmts.len(),
            self.models.len(),
        ]
    }

    /// The sections and the trailer. Nothing is checked.
    pub fn to_bytes(&self) -> Vec<u8> {
        let mut out = self.text.clone();
        bytes::put_records(&mut out, self);
        for count in self.counts() {
            bytes::put(&mut out, count as u32);
        }
        bytes::put(&mut out, FORM);
        out
    }

    /// The file that these bytes lay out, or the refusal: [`NO_FORM`], [`OVER_MOST`] or [`BROKEN_LAYOUT`], tested in
    /// that order.
    pub fn open(bytes: &[u8]) -> Result<File, u32> {
        let counts = counts(bytes)?;
        if counts.iter().zip(MOSTS).any(|(count, most)| *count > most) {
            return Err(OVER_MOST);
        }
        if length(&counts) != bytes.len() as u64 {
            return Err(BROKEN_LAYOUT);
        }
        let file = bytes::records(bytes, &counts);
        if file.keeps_layout() {
            Ok(file)
        } else {
            Err(BROKEN_LAYOUT)
        }
    }

    /// Whether every record obeys the layout rules. The mosts are not looked at.
    pub fn keeps_layout(&self) -> bool {
        rules::file_fits(self)
    }

    /// The bytes of name `n` of a file that keeps its layout.
    pub fn name(&self, n: u32) -> &[u8] {
        let name = self.names[n as usize];
        &self.text[name.start as usize..name.start as usize + name.len as usize]
    }

    /// The number of the name with these bytes.
    pub fn find_name(&self, bytes: &[u8]) -> Option<u32> {
        (0..self.names.len() as u32).find(|n| self.name(*n) == bytes)
    }

    /// The child nodes of node `i`, in order, in a file that keeps its layout.
    pub fn children(&self, i: usize) -> Vec<usize> {
        let mut end = i;
        let mut found = Vec::new();
        for _ in 0..child_count(&self.nodes[i]) {
            found.push(end - 1);
            end -= self.nodes[end - 1].size as usize;
        }
        found.reverse();
        found
    }

    /// The unknowns of a model, in order.
    pub fn unknowns_of(&self, model: &Model) -> &[Unknown] {
        run(&self.unknowns, model.first_unknown, model.unknowns)
    }

    /// The statements of a model, in order.
    pub fn stmts_of(&self, model: &Model) -> &[Stmt] {
        run(&self.stmts, model.first_stmt, model.stmts)
    }

    /// The name numbers of an unknown's dependents, in order.
    pub fn dependents_of(&self, unknown: &Unknown) -> &[u32] {
        run(&self.dependents, unknown.first, unknown.count)
    }
}

/// The children that a node of this kind has.
fn child_count(n: &crate::records::Node) -> u32 {
    match n.kind {
        node::BINARY => 2,
        node::UNARY | node::ARGUMENT => 1,
        node::CALL => n.op,
        _ => 0,
    }
}

fn run<T>(section: &[T], first: u32, count: u32) -> &[T] {
    &section[first as usize..first as usize + count as usize]
}

/// The trailer's counts.
fn counts(bytes: &[u8]) -> Result<[u32; 7], u32> {
    let start = bytes.len().checked_sub(TRAILER).ok_or(NO_FORM)?;
    let mut words = bytes::Words::new(&bytes[start..]);
    let counts = std::array::from_fn(|_| words.word());
    if words.word() == FORM {
        Ok(counts)
    } else {
        Err(NO_FORM)
    }
}

/// The length of a file with these counts.
fn length(counts: &[u32; 7]) -> u64 {
    let sections = counts.iter().zip(RECORD_BYTES);
    TRAILER as u64 + sections.map(|(c, b)| u64::from(*c) * b as u64).sum::<u64>()
}
