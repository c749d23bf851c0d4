//! `bench`: how fast the proved builder is beside the original, how both grow with the file, and how much stack a build
//! takes. `bench speed`, `bench growth` and `bench stack` do one of the three; `bench only CLASS PASSES` runs the library alone
//! on a class, for a profiler. Every class is compared with the original before it is measured.

mod case;
mod classes;
mod depths;
mod models;
mod stack;
mod tables;
mod timing;

use area::layout::MOST_BYTES;
use case::Class;
use compare::Series;
use oracle::deep;
use std::process::ExitCode;

const USAGE: &str = "usage: bench [speed | growth | stack | only CLASS PASSES]";

fn main() -> ExitCode {
    let arguments: Vec<String> = std::env::args().skip(1).collect();
    let words: Vec<&str> = arguments.iter().map(String::as_str).collect();
    if !oracle::available() {
        println!("SKIPPED: the original source is not there");
        return ExitCode::SUCCESS;
    }
    let done = match words[..] {
        [] => speed().and_then(|()| growth()).map(|()| stacks()),
        ["speed"] => speed(),
        ["growth"] => growth(),
        ["stack"] => {
            stacks();
            Ok(())
        }
        ["only", class, passes] => only(class, passes),
        _ => Err(USAGE.to_string()),
    };
    match done {
        Ok(()) => ExitCode::SUCCESS,
        Err(message) => {
            eprintln!("{message}");
            ExitCode::FAILURE
        }
    }
}

/// Whether both answer alike on every file of a class.
fn alike(class: &Class) -> Result<(), String> {
    let mut series = Series::default();
    deep::call(|| {
        for (seed, case) in class.cases.iter().enumerate() {
            series.run(case, seed as u64);
        }
    });
    match series.failures.first() {
        None => Ok(()),
        Some(failure) => Err(format!("{}: {}", class.label, failure.reason)),
    }
}

/// The classes measured, on a stack deep enough for the Rust.
fn measured(classes: &[Class]) -> Result<Vec<timing::Measured>, String> {
    classes.iter().try_for_each(alike)?;
    Ok(deep::call(|| classes.iter().map(timing::measure).collect()))
}

fn speed() -> Result<(), String> {
    let classes = classes::all();
    tables::speed(&classes, &measured(&classes)?);
    Ok(())
}

fn growth() -> Result<(), String> {
    for (what, classes) in [
        ("statements", classes::statements()),
        ("models deep", classes::nesting()),
    ] {
        tables::growth(what, &classes, &measured(&classes)?);
    }
    Ok(())
}

fn stacks() {
    let classes = depths::all();
    let used: Vec<usize> = classes.iter().map(|c| stack::used(&c.cases)).collect();
    tables::stack(&classes, &used);
}

/// The library alone, so many passes over the class with this label.
fn only(label: &str, passes: &str) -> Result<(), String> {
    let passes: u32 = passes.parse().map_err(|_| USAGE.to_string())?;
    let class = classes::labelled(label);
    let mut area = vec![0; MOST_BYTES];
    for _ in 0..passes {
        for case in &class.cases {
            timing::library(case, &mut area);
        }
    }
    Ok(())
}
