//! `compare FIRST COUNT`: the hand-made cases and the random cases of so many seeds, on two threads. Prints how far it is
//! and what came up; where a case fails it stops, writes the smallest failing input to `target/compare` and ends with
//! status 1.

use compare::{keep, smallest, Series};
use oracle::Failure;
use std::path::Path;
use std::process::ExitCode;
use std::time::Instant;

/// Progress is told after so many seeds.
const TOLD: u64 = 10_000;
/// Where a failing input is written.
const FOLDER: &str = concat!(env!("CARGO_MANIFEST_DIR"), "/../target/compare");

fn main() -> ExitCode {
    let arguments = std::env::args().skip(1);
    let arguments: Vec<u64> = arguments.filter_map(|a| a.parse().ok()).collect();
    let [first, count] = arguments[..] else {
        eprintln!("usage: compare FIRST COUNT");
        return ExitCode::from(2);
    };
    if !oracle::available() {
        println!("SKIPPED: the original source is not there");
        return ExitCode::SUCCESS;
    }
    let start = Instant::now();
    let told = |seeds: u64| {
        if seeds.is_multiple_of(TOLD) {
            println!("{seeds} seeds, {:.0} s", start.elapsed().as_secs_f64());
        }
    };
    let mut series = Series::fixed();
    if series.failures.is_empty() {
        series.join(Series::random(first, count, told));
    }
    print!("{}", series.tally);
    println!(
        "{count} seeds from {first}: {} cases, {} calls, {} failures, {:.1} s",
        series.tally.cases(),
        series.calls,
        series.failures.len(),
        start.elapsed().as_secs_f64()
    );
    let failures = series.failures.into_iter();
    match failures.min_by_key(|failure| failure.bytes.len()) {
        None => ExitCode::SUCCESS,
        Some(failure) => {
            println!("FAILED: {}; the smallest case found:", failure.reason);
            show(&smallest(failure));
            ExitCode::FAILURE
        }
    }
}

fn show(failure: &Failure) {
    print!("{failure}");
    match keep(failure, Path::new(FOLDER)) {
        Ok(()) => println!("written to target/compare/smallest.tree, .root and .txt"),
        Err(error) => println!("not written: {error}"),
    }
}
