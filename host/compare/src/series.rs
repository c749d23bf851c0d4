//! Series of cases: each judged by the original, built by the proved builder, and compared.

use crate::{areas, unmodified};
use oracle::tally::Tally;
use oracle::{deep, Failure};
use record::Case;
use std::sync::atomic::{AtomicBool, AtomicU64, Ordering};
use std::thread;
use treefile::File;

/// How many seeds a thread takes at a time.
const BLOCK: u64 = 250;
/// The threads of a series.
const THREADS: usize = 2;

/// What came up in a series, and the cases that failed.
#[derive(Default)]
pub struct Series {
    pub tally: Tally,
    /// Calls of the builder.
    pub calls: u64,
    pub failures: Vec<Failure>,
}

impl Series {
    /// Runs one case; a failure is kept.
    pub fn run(&mut self, case: &generate::Case, seed: u64) {
        if let Err(reason) = self.compare(case, seed) {
            self.failures.push(Failure {
                bytes: case.bytes.clone(),
                root: case.root.clone(),
                reason,
            });
        }
    }

    /// Runs the random case of a seed; a failure names the seed.
    fn seed(&mut self, seed: u64) {
        let before = self.failures.len();
        self.run(&generate::case(seed), seed);
        for failure in &mut self.failures[before..] {
            failure.reason += &format!(", seed {seed}");
        }
    }

    /// Judges a case and compares: first every byte with the original that has the ordered map, for areas of several
    /// lengths, then the answer, which is now known to be the builder's, with the unmodified one.
    fn compare(&mut self, case: &generate::Case, seed: u64) -> Result<(), String> {
        let judged = self.tally.run(&case.bytes, &case.root, case.label)?;
        let case = Case::of(case.bytes.clone(), case.root.clone(), judged.answer)?;
        self.calls += areas::check(&case, seed)?;
        self.tally
            .add("compared", "every byte, with the ordered map");
        if let (0, Ok(file)) = (case.number, File::open(&case.file)) {
            if unmodified::compare(&file, &case.root, &case.area)? {
                self.tally
                    .add("compared", "an answer, unmodified, with sorted errors");
            }
        }
        Ok(())
    }

    /// Adds another series.
    pub fn join(&mut self, other: Series) {
        self.tally.join(other.tally);
        self.calls += other.calls;
        self.failures.extend(other.failures);
    }

    /// The hand-made cases: the worked examples and the edges of every rule.
    pub fn fixed() -> Series {
        deep::call(|| {
            let mut series = Series::default();
            for (seed, case) in generate::fixed().into_iter().enumerate() {
                let label = "hand-made";
                series.run(&generate::Case { label, ..case }, seed as u64);
            }
            series
        })
    }

    /// The random cases of so many seeds, on two threads, up to the first block in which one fails. After each block the
    /// number of seeds that were taken is told.
    pub fn random(first: u64, count: u64, told: impl Fn(u64) + Sync) -> Series {
        let (next, stop) = (AtomicU64::new(0), AtomicBool::new(false));
        let work = || {
            let mut series = Series::default();
            while !stop.load(Ordering::Relaxed) {
                let from = next.fetch_add(BLOCK, Ordering::Relaxed);
                if from >= count {
                    break;
                }
                let to = count.min(from + BLOCK);
                (first + from..first + to).for_each(|seed| series.seed(seed));
                if !series.failures.is_empty() {
                    stop.store(true, Ordering::Relaxed);
                }
                told(to);
            }
            series
        };
        let mut all = Series::default();
        thread::scope(|scope| {
            let workers = [(); THREADS].map(|()| scope.spawn(|| deep::call(work)));
            for worker in workers {
                all.join(worker.join().expect("a series that does not panic"));
            }
        });
        all
    }
}
