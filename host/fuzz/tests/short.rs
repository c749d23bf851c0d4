//! Two seconds of fuzzing; before them, that a byte touched outside a slice ends the process and leaves the case on disk.

use fuzz::{crash, Pages, Side};
use generate::Case;
use std::path::Path;
use std::process::{Command, ExitCode};
use std::{env, fs};

/// How long the run is.
const SECONDS: u64 = 2;
const SEED: u64 = 1;
/// Set where this program is to touch a byte that it may not.
const OVERRUN: &str = "FUZZ_OVERRUN";
const FOLDER: &str = env!("CARGO_TARGET_TMPDIR");

fn main() -> ExitCode {
    if let Ok(kind) = env::var(OVERRUN) {
        overrun(&kind);
        return ExitCode::SUCCESS;
    }
    for kind in ["before", "behind", "write"] {
        if let Err(what) = ends(kind) {
            println!("FAILED: a byte touched ({kind}): {what}");
            return ExitCode::FAILURE;
        }
    }
    let figures = fuzz::run(SECONDS, SEED, Path::new(FOLDER), |_| ());
    println!("{figures}");
    match (figures.failures, figures.cases) {
        (0, 1..) => ExitCode::SUCCESS,
        _ => ExitCode::FAILURE,
    }
}

fn case(kind: &str) -> Case {
    Case {
        bytes: format!("a file, {kind}").into_bytes(),
        root: b"root".to_vec(),
        label: "overrun",
    }
}

/// Touches the byte before or behind a lent file, or writes to it.
fn overrun(kind: &str) {
    let case = case(kind);
    let mut pages = Pages::new(1);
    crash::watch(Path::new(FOLDER)).expect("a folder");
    crash::within(&case, || {
        let side = if kind == "before" {
            Side::Front
        } else {
            Side::Back
        };
        let file = pages.lend(&case.bytes, side);
        let start = file.as_ptr().cast_mut();
        // SAFETY: none; each of these ends the process, which is what is tested.
        unsafe {
            match kind {
                "before" => drop(start.wrapping_sub(1).read_volatile()),
                "behind" => drop(start.wrapping_add(file.len()).read_volatile()),
                _ => start.write_volatile(0),
            }
        }
    });
}

/// Runs this program again to touch a byte: it must end with the status of a crash and leave the case.
fn ends(kind: &str) -> Result<(), String> {
    let own = env::current_exe().map_err(|error| error.to_string())?;
    let run = Command::new(own).env(OVERRUN, kind).output();
    let run = run.map_err(|error| error.to_string())?;
    if run.status.code() != Some(crash::STATUS) {
        return Err(format!("{}", run.status));
    }
    let left = |name| fs::read(Path::new(FOLDER).join(name)).unwrap_or_default();
    let case = case(kind);
    if (left("crash.tree"), left("crash.root")) != (case.bytes, case.root) {
        return Err("another case on disk".to_string());
    }
    Ok(())
}
