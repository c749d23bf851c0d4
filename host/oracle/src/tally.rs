//! What came up in a series of cases.

use crate::compare::{report_unmodified, same_up_to_order, Run};
use crate::judge::{judge, Answer, Judged};
use crate::measure::Sizes;
use crate::plan::{prospect, Prospect};
use area::layout::MOST_LISTED;
use report::{Outcome, Panic};
use std::collections::BTreeMap;
use std::fmt;
use treefile::File;

/// More than any answer needs.
const ROOM: usize = 60_000;

/// The calls of `ModelInfo::build` that gave what its steps give, with either map.
const CALLED: [&str; 2] = ["ModelInfo::build, ordered", "ModelInfo::build, unmodified"];

/// Counts by subject and value.
#[derive(Clone, Debug, Default)]
pub struct Tally {
    pub counts: BTreeMap<(&'static str, String), u64>,
}

impl Tally {
    /// Counts a value once more.
    pub fn add(&mut self, subject: &'static str, value: impl ToString) {
        *self.counts.entry((subject, value.to_string())).or_default() += 1;
    }

    /// Adds the counts of another series.
    pub fn join(&mut self, other: Tally) {
        for (key, count) in other.counts {
            *self.counts.entry(key).or_default() += count;
        }
    }

    /// How many cases were run.
    pub fn cases(&self) -> u64 {
        let labels = self.counts.iter();
        let labels = labels.filter(|((subject, _), _)| *subject == "label");
        labels.map(|(_, count)| count).sum()
    }

    /// How many cases `ModelInfo::build` itself was called on, in both variants, and gave what its steps give.
    pub fn called(&self) -> u64 {
        let counts = CALLED.map(|variant| self.count("called", variant));
        counts[0].min(counts[1])
    }

    /// How often a value came up.
    pub fn count(&self, subject: &'static str, value: impl ToString) -> u64 {
        self.counts
            .get(&(subject, value.to_string()))
            .copied()
            .unwrap_or(0)
    }

    /// Judges one case and adds what came up; an error is a failed cross-check or a difference of the two variants.
    pub fn run(&mut self, bytes: &[u8], root: &[u8], label: &str) -> Result<Judged, String> {
        let judged = judge(bytes, root, ROOM)?;
        self.add("label", label);
        self.add_answer(&judged);
        if let Ok(file) = File::open(bytes) {
            self.compare(&file, root, &judged)?;
        }
        if let (Answer::Area(area), true) = (&judged.answer, bytes.len().is_multiple_of(8)) {
            self.rooms(bytes, root, area)?;
        }
        Ok(judged)
    }

    fn add_answer(&mut self, judged: &Judged) {
        match &judged.answer {
            Answer::Refused(number) => self.add("refusal", number),
            _ => self.add("build", "accepted"),
        }
        match &judged.outcome {
            Some(Outcome::Panicked(Panic::SelfListed)) => self.add("panic", "set_dependents"),
            Some(Outcome::Panicked(Panic::BeyondUnknowns)) => {
                self.add("panic", "find_replacements")
            }
            Some(Outcome::Panicked(Panic::BeyondArguments)) => self.add("panic", "allocate_stmt"),
            _ => (),
        }
        if judged.endless {
            self.add("build", "endless in the original");
        } else if judged.outcome.is_some() {
            self.add("called", CALLED[0]);
        }
        let Some(area) = &judged.area else {
            return;
        };
        let mut kinds: Vec<u32> = area.errors.iter().map(|error| error.kind).collect();
        if kinds.is_empty() {
            self.add("build", "clean");
        }
        if kinds.len() > MOST_LISTED {
            self.add("build", "over 256 errors");
        }
        kinds.sort();
        kinds.dedup();
        kinds.into_iter().for_each(|kind| self.add("error", kind));
        area.stmts
            .iter()
            .for_each(|stmt| self.add("fate", stmt.fate));
    }

    fn compare(&mut self, file: &File, root: &[u8], judged: &Judged) -> Result<(), String> {
        if let Prospect::Plan(plan) = prospect(file, root)? {
            self.add_sizes(&plan.sizes);
        }
        match (report_unmodified(file, root)?, &judged.outcome) {
            (Run::Ended(unmodified), Some(ordered)) => {
                self.add("variants", "compared");
                self.add("called", CALLED[1]);
                same_up_to_order(ordered, &unmodified)
            }
            (Run::Ended(_), None) => Err("only the unmodified variant was run".to_string()),
            (Run::Endless, _) => {
                self.add("variants", "endless");
                Ok(())
            }
            (Run::TooBig, _) => {
                self.add("variants", "too big to run");
                Ok(())
            }
        }
    }

    fn add_sizes(&mut self, sizes: &Sizes) {
        if sizes.over() && !sizes.far_over() {
            self.add("variants", "over a most, run all the same");
        }
    }

    /// An area just long enough, and one that is a byte short.
    fn rooms(&mut self, bytes: &[u8], root: &[u8], area: &[u8]) -> Result<(), String> {
        let just = judge(bytes, root, area.len())?.answer == Answer::Area(area.to_vec());
        let short = judge(bytes, root, area.len() - 1)?.answer == Answer::Refused(1);
        self.add("refusal", 1);
        (just && short)
            .then_some(())
            .ok_or("the room is misjudged".to_string())
    }
}

/// The counts, naming what never came up.
impl fmt::Display for Tally {
    fn fmt(&self, out: &mut fmt::Formatter) -> fmt::Result {
        for (subject, values) in [("error", 1..=17), ("refusal", 1..=10), ("fate", 1..=4)] {
            let counts: Vec<String> = values
                .map(|v: u32| format!("{v}: {}", self.count(subject, v)))
                .collect();
            writeln!(out, "{subject:10} {}", counts.join("  "))?;
        }
        for panic in ["set_dependents", "find_replacements", "allocate_stmt"] {
            writeln!(
                out,
                "{:10} {panic}: {}",
                "panic",
                self.count("panic", panic)
            )?;
        }
        for ((subject, value), count) in &self.counts {
            if !["error", "refusal", "fate", "panic"].contains(subject) {
                writeln!(out, "{subject:10} {value}: {count}")?;
            }
        }
        Ok(())
    }
}
