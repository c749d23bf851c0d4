//! A case that failed, shown so that it can be looked at and run again.

use std::fmt;
use treefile::source::Source;
use treefile::{text, File};

/// A case and why it failed.
#[derive(Clone, Debug)]
pub struct Failure {
    pub bytes: Vec<u8>,
    pub root: Vec<u8>,
    pub reason: String,
}

/// The reason, the root name, the models in the text form where the file can be opened, and the file's bytes.
impl fmt::Display for Failure {
    fn fmt(&self, out: &mut fmt::Formatter) -> fmt::Result {
        writeln!(out, "{}", self.reason)?;
        writeln!(out, "root {:?}", String::from_utf8_lossy(&self.root))?;
        if let Ok(file) = File::open(&self.bytes) {
            writeln!(out, "{}", text::print(&Source::of_file(&file)))?;
        }
        let hex: String = self
            .bytes
            .iter()
            .map(|byte| format!("{byte:02x}"))
            .collect();
        writeln!(out, "{hex}")
    }
}
