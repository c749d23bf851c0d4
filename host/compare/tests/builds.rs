//! The proved builder on the examples, then on 3,000 cases against the original; where its source is not there, on the
//! recorded cases instead, unless ORACLE_REQUIRED asks for the original. What was compared is told in one line, which is
//! also written to the file that COMPARED names.

use compare::{check, examples, smallest, Series};
use std::process::ExitCode;
use std::{env, fs};

/// Hand-made and random cases together.
const CASES: u64 = 3_000;
/// The first seed.
const FIRST: u64 = 1;
/// The recorded cases stand where the program that replays them reads them.
const RECORDED: &str = concat!(env!("CARGO_MANIFEST_DIR"), "/../../crates/replay/stdin");

fn main() -> ExitCode {
    let compared: fn() -> Result<(), String> = if oracle::available() {
        against_the_original
    } else {
        against_the_recorded
    };
    let mut status = ExitCode::SUCCESS;
    for part in [run_examples, compared] {
        if let Err(reason) = part() {
            println!("FAILED: {reason}");
            status = ExitCode::FAILURE;
        }
    }
    status
}

fn run_examples() -> Result<(), String> {
    let (worked, run_only) = (examples::worked()?, examples::run_only()?);
    println!("examples of document 01: {worked} worked, {run_only} run only, as written");
    Ok(())
}

fn against_the_original() -> Result<(), String> {
    let mut series = Series::fixed();
    let left = CASES - series.tally.cases();
    series.join(Series::random(FIRST, left, |_| ()));
    print!("{}", series.tally);
    let (cases, called) = (series.tally.cases(), series.tally.called());
    let (calls, failures) = (series.calls, series.failures);
    println!(
        "comparison with the original: {cases} cases, {calls} calls, {} failures",
        failures.len()
    );
    match failures
        .into_iter()
        .min_by_key(|failure| failure.bytes.len())
    {
        Some(failure) => Err(smallest(failure).to_string()),
        None if cases < CASES => Err(format!("fewer than {CASES} cases")),
        None if called == 0 => Err("ModelInfo::build was never called".to_string()),
        None => tell(&format!(
            "compared with the original: {called} files, ModelInfo::build called on each in both variants; {} more, on \
             which it cannot be called, by the rules of document 01",
            cases - called
        )),
    }
}

fn against_the_recorded() -> Result<(), String> {
    if env::var_os("ORACLE_REQUIRED").is_some() {
        return Err(
            "the original's source is not there, and ORACLE_REQUIRED asks for it".to_string(),
        );
    }
    println!("SKIPPED: comparison with the original, whose source is not there; the recorded cases are replayed instead");
    let bytes = fs::read(RECORDED).map_err(|error| format!("{RECORDED}: {error}"))?;
    let cases = record::read(&bytes);
    let mut calls = 0;
    for (i, case) in cases.iter().enumerate() {
        calls += check(case, i as u64).map_err(|what| format!("recorded case {i}: {what}"))?;
    }
    println!(
        "recorded cases: {} replayed, {calls} calls, 0 failures",
        cases.len()
    );
    tell(&format!(
        "nothing was compared with the original, whose source is not there: {} recorded answers served",
        cases.len()
    ))
}

/// Tells what was compared.
fn tell(line: &str) -> Result<(), String> {
    println!("{line}");
    match env::var_os("COMPARED") {
        None => Ok(()),
        Some(file) => {
            fs::write(&file, format!("{line}\n")).map_err(|error| format!("{file:?}: {error}"))
        }
    }
}
