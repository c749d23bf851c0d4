//! A run: case after case until the time is over.

use crate::check::{check, Seen};
use crate::corpus::Corpus;
use crate::figures::Figures;
use crate::lend::Bench;
use crate::{blocks, crash};
use compare::Series;
use generate::prng::Random;
use generate::Case;
use oracle::{deep, Failure};
use std::path::Path;
use std::time::{Duration, Instant};

/// Every so many cases one is compared with the original; so is each case that is kept.
const COMPARED: u64 = 32;
/// Figures are told after so many seconds.
const TOLD: u64 = 60;
/// So many failing cases are written.
const WRITTEN: usize = 20;

/// Runs the hand-made cases and then others for so many seconds. What ends the process or fails is written to the folder;
/// `told` gets the figures now and then.
pub fn run(seconds: u64, seed: u64, folder: &Path, told: impl Fn(&Figures)) -> Figures {
    crash::watch(folder).expect("a folder for failing cases");
    let start = Instant::now();
    let mut run = Run {
        bench: Bench::new(seed),
        random: Random::new(seed),
        corpus: Corpus::default(),
        figures: Figures::default(),
        folder,
    };
    match blocks::mark() {
        Ok(count) => run.figures.blocks = count,
        Err(why) => run.figures.uncounted = Some(why),
    }
    for case in generate::fixed() {
        run.case(&case);
    }
    let mut next = TOLD;
    while start.elapsed() < Duration::from_secs(seconds) {
        let case = run.corpus.next(&mut run.random);
        run.case(&case);
        if start.elapsed() > Duration::from_secs(next) {
            next += TOLD;
            told(run.figures(start));
        }
    }
    run.figures(start);
    run.figures
}

struct Run<'f> {
    bench: Bench,
    random: Random,
    corpus: Corpus,
    figures: Figures,
    folder: &'f Path,
}

impl Run<'_> {
    /// Runs one case; a failure is kept.
    fn case(&mut self, case: &Case) {
        self.figures.cases += 1;
        let (bench, random) = (&mut self.bench, &mut self.random);
        let result = crash::within(case, || check(bench, case, random));
        if let Err(reason) = result.and_then(|seen| self.seen(case, seen)) {
            self.fail(case, reason);
        }
    }

    /// Counts what a case gave, keeps it where that is new, and compares it now and then.
    fn seen(&mut self, case: &Case, seen: Seen) -> Result<(), String> {
        self.figures.calls += seen.calls;
        self.figures.numbers[seen.number as usize] += 1;
        if seen.number == 0 {
            self.figures.numbers[1] += 1;
        }
        let kept = self.corpus.keep(case, seen.features, blocks::met());
        let due = kept || self.figures.cases.is_multiple_of(COMPARED);
        if !due || !oracle::available() {
            return Ok(());
        }
        self.figures.compared += 1;
        let seed = self.random.bits();
        let series = crash::within(case, || {
            deep::call(|| {
                let mut series = Series::default();
                series.run(case, seed);
                series
            })
        });
        match series.failures.into_iter().next() {
            Some(failure) => Err(failure.reason),
            None => Ok(()),
        }
    }

    fn fail(&mut self, case: &Case, reason: String) {
        self.figures.failures += 1;
        println!("FAILED: {reason}");
        if self.figures.failures > WRITTEN {
            return;
        }
        let failure = Failure {
            bytes: case.bytes.clone(),
            root: case.root.clone(),
            reason,
        };
        let folder = self
            .folder
            .join(format!("failing-{}", self.figures.failures));
        if let Err(error) = compare::keep(&failure, &folder) {
            println!("not written: {error}");
        }
    }

    fn figures(&mut self, start: Instant) -> &Figures {
        self.figures.seconds = start.elapsed().as_secs_f64();
        self.figures.kept = self.corpus.cases.len();
        self.figures.features = self.corpus.features.len();
        self.figures.met = blocks::met();
        self.figures.unmet = blocks::unmet();
        &self.figures
    }
}
