//! `fuzz SECONDS [SEED]`: random, damaged and mutated cases for so many seconds on one thread. Prints the figures every minute
//! and at the end; a case that fails is written to `target/fuzz`, and the status is then 1.

use std::path::Path;
use std::process::ExitCode;

/// Where failing cases are written.
const FOLDER: &str = concat!(env!("CARGO_MANIFEST_DIR"), "/../target/fuzz");

fn main() -> ExitCode {
    let arguments: Option<Vec<u64>> = std::env::args().skip(1).map(|a| a.parse().ok()).collect();
    let (seconds, seed) = match arguments.as_deref() {
        Some([seconds]) => (*seconds, 1),
        Some([seconds, seed]) => (*seconds, *seed),
        _ => {
            eprintln!("usage: fuzz SECONDS [SEED]");
            return ExitCode::from(2);
        }
    };
    let figures = fuzz::run(seconds, seed, Path::new(FOLDER), |figures| {
        println!("{figures}\n")
    });
    println!("{figures}");
    match figures.failures {
        0 => ExitCode::SUCCESS,
        _ => ExitCode::FAILURE,
    }
}
