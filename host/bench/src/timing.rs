//! The two builders in turn on the same bytes.

use crate::case::Class;
use area::layout::MOST_BYTES;
use generate::Case;
use report::Step;
use std::time::{Duration, Instant};

/// A turn of one builder is about as long as this, or one pass over the class.
const TURN: Duration = Duration::from_micros(300);
/// How long a class is measured, and how many rounds at the least.
const WHOLE: Duration = Duration::from_millis(3_000);
const ROUNDS: usize = 40;

/// The time of one pass over a class: each file's least of all rounds, summed up; and the median of the rounds.
#[derive(Clone, Copy, Debug)]
pub struct Times {
    pub least: Duration,
    pub median: Duration,
}

/// What was measured of a class.
pub struct Measured {
    pub library: Times,
    pub rust: Times,
    /// The Rust's steps, measured one by one in rounds of their own: reading the file, making the trees, and building.
    pub parts: [Duration; 3],
    pub rounds: usize,
}

impl Measured {
    pub fn ratio(&self) -> f64 {
        self.library.least.as_secs_f64() / self.rust.least.as_secs_f64()
    }

    pub fn ratio_of_medians(&self) -> f64 {
        self.library.median.as_secs_f64() / self.rust.median.as_secs_f64()
    }
}

/// Measures a class: library, Rust, library, Rust, and so on.
pub fn measure(class: &Class) -> Measured {
    let mut area = vec![0xa5; MOST_BYTES];
    let tried = (0..5).map(|_| turn(class, 1, |case| library(case, &mut area)));
    let one = tried.map(|times| times.iter().sum::<Duration>()).min();
    let passes = (TURN.as_nanos() / one.unwrap_or_default().as_nanos().max(1)).clamp(1, 1_000);
    let start = Instant::now();
    let (mut libraries, mut rusts) = (Vec::new(), Vec::new());
    let mut parts = vec![[Duration::MAX; 3]; class.cases.len()];
    while start.elapsed() < WHOLE || libraries.len() < ROUNDS {
        libraries.push(turn(class, passes as u32, |case| library(case, &mut area)));
        rusts.push(turn(class, passes as u32, rust));
        for (least, case) in parts.iter_mut().zip(&class.cases) {
            let now = rust_parts(case);
            *least = [0, 1, 2].map(|i: usize| least[i].min(now[i]));
        }
    }
    Measured {
        rounds: libraries.len(),
        library: times(&libraries),
        rust: times(&rusts),
        parts: [0, 1, 2].map(|i: usize| parts.iter().map(|part| part[i]).sum()),
    }
}

/// So many passes over a class; the time of each file in one pass.
fn turn(class: &Class, passes: u32, mut one: impl FnMut(&Case) -> Duration) -> Vec<Duration> {
    let mut times = vec![Duration::ZERO; class.cases.len()];
    for _ in 0..passes {
        for (time, case) in times.iter_mut().zip(&class.cases) {
            *time += one(case);
        }
    }
    times.into_iter().map(|time| time / passes).collect()
}

fn times(rounds: &[Vec<Duration>]) -> Times {
    let least = |i: usize| {
        rounds
            .iter()
            .map(|round| round[i])
            .min()
            .unwrap_or_default()
    };
    let mut sums: Vec<Duration> = rounds.iter().map(|round| round.iter().sum()).collect();
    sums.sort();
    Times {
        least: (0..rounds[0].len()).map(least).sum(),
        median: sums[sums.len() / 2],
    }
}

/// The library: the file opened, checked and built, the answer handed out and the rest of the area cleared.
pub fn library(case: &Case, area: &mut [u8]) -> Duration {
    let start = Instant::now();
    let returned = builder_sys::build(&case.bytes, &case.root, area);
    let time = start.elapsed();
    assert_eq!(builder_sys::number(returned), 0, "a build is refused");
    time
}

/// The Rust: the file read and checked, its trees made, and `ModelInfo::build`. Freeing is not counted.
fn rust(case: &Case) -> Duration {
    let mut time = Duration::ZERO;
    let start = Instant::now();
    let told = |step| {
        if step == Step::Built {
            time = start.elapsed();
        }
    };
    let built = rust_unmodified::bare(&case.bytes, &case.root, told);
    assert!(built, "the Rust finds no root");
    time
}

/// The same by steps.
fn rust_parts(case: &Case) -> [Duration; 3] {
    let mut parts = [Duration::ZERO; 3];
    let mut last = Instant::now();
    let told = |step: Step| {
        let now = Instant::now();
        parts[step as usize] = now - last;
        last = now;
    };
    rust_unmodified::bare(&case.bytes, &case.root, told);
    parts
}
