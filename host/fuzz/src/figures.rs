//! What came up in a run.

use std::fmt;

/// The figures of a run.
#[derive(Default)]
pub struct Figures {
    pub seconds: f64,
    pub cases: u64,
    /// Calls of the builder, without those of the comparison.
    pub calls: u64,
    /// Cases by number: accepted, then the refusals 1 to 10; 1 is counted for each accepted case with a short area.
    pub numbers: [u64; 11],
    /// Cases that were compared with the original.
    pub compared: u64,
    /// Cases that were kept because they showed something new.
    pub kept: usize,
    pub features: usize,
    /// Blocks of the library's code that were met, and how many there are.
    pub met: usize,
    pub blocks: usize,
    /// Why the blocks are not counted.
    pub uncounted: Option<String>,
    /// The blocks that were not met.
    pub unmet: Vec<String>,
    pub failures: usize,
}

impl fmt::Display for Figures {
    fn fmt(&self, out: &mut fmt::Formatter) -> fmt::Result {
        let refusals = self.numbers.iter().enumerate().skip(1);
        let refusals: Vec<String> = refusals.map(|(n, count)| format!("{n}: {count}")).collect();
        writeln!(out, "accepted   {}", self.numbers[0])?;
        writeln!(out, "refusal    {}", refusals.join("  "))?;
        writeln!(
            out,
            "corpus     {} cases, {} features",
            self.kept, self.features
        )?;
        match &self.uncounted {
            Some(why) => writeln!(out, "blocks     not counted: {why}")?,
            None => {
                writeln!(out, "blocks     {} of {} met", self.met, self.blocks)?;
                writeln!(out, "not met    {}", self.unmet.join(" "))?;
            }
        }
        match self.compared {
            0 => writeln!(out, "compared   SKIPPED: the original source is not there")?,
            count => writeln!(out, "compared   {count} cases with the original")?,
        }
        write!(
            out,
            "fuzzing: {} cases, {} calls, {} failures, {:.0} s",
            self.cases, self.calls, self.failures, self.seconds
        )
    }
}
