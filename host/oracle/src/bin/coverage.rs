//! `coverage SEED COUNT`: runs the oracle on generated cases and prints what came up. Ends with status 1 where a
//! cross-check fails or the two variants of the original differ.

use oracle::tally::Tally;
use oracle::Failure;
use std::process::ExitCode;
use std::time::Instant;

fn main() -> ExitCode {
    let arguments: Vec<u64> = std::env::args()
        .skip(1)
        .filter_map(|a| a.parse().ok())
        .collect();
    let [seed, count] = arguments[..] else {
        eprintln!("usage: coverage SEED COUNT");
        return ExitCode::from(2);
    };
    if !oracle::available() {
        println!("SKIPPED: the original source is not there");
        return ExitCode::SUCCESS;
    }
    let start = Instant::now();
    let (tally, failures) = oracle::deep::call(|| run(seed, count));
    print!("{tally}");
    println!(
        "{} cases, {} failures, {:.1} s",
        tally.cases(),
        failures.len(),
        start.elapsed().as_secs_f64()
    );
    match failures.iter().min_by_key(|failure| failure.bytes.len()) {
        None => ExitCode::SUCCESS,
        Some(smallest) => {
            print!("FAILED: {smallest}");
            ExitCode::FAILURE
        }
    }
}

fn run(seed: u64, count: u64) -> (Tally, Vec<Failure>) {
    let mut tally = Tally::default();
    let mut failures = Vec::new();
    let generated = (0..count).map(|i| generate::case(seed + i));
    for case in generate::fixed().into_iter().chain(generated) {
        if let Err(reason) = tally.run(&case.bytes, &case.root, case.label) {
            failures.push(Failure {
                bytes: case.bytes,
                root: case.root,
                reason,
            });
        }
    }
    (tally, failures)
}
