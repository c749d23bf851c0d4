//! `sheet TREEFILE ROOT AREAFILE [SOURCE]`: the witness sheet of an answer that was written to a file, as the program
//! `release` does. With the source text, places are lines and columns. Exit status as that of `witness`.

use builder::Answer;
use sheet::{accepted, print, Case, Sheet, Text};
use std::process::ExitCode;
use std::{env, fs};
use treefile::File;

fn main() -> ExitCode {
    let arguments: Vec<String> = env::args().skip(1).collect();
    let result = match &arguments[..] {
        [file, root, area] => sheet(file, root.as_bytes(), area, None),
        [file, root, area, source] => sheet(file, root.as_bytes(), area, Some(source)),
        _ => Err("usage: sheet TREEFILE ROOT AREAFILE [SOURCE]".to_string()),
    };
    print(result)
}

fn read(path: &str) -> Result<Vec<u8>, String> {
    fs::read(path).map_err(|error| format!("{path}: {error}"))
}

fn sheet(path: &str, root: &[u8], area: &str, source: Option<&String>) -> Result<Sheet, String> {
    let bytes = read(path)?;
    let file =
        File::open(&bytes).map_err(|number| format!("{path}: no tree file, refusal {number}"))?;
    let answer = read(area)?;
    if answer.iter().all(|byte| *byte == 0) {
        return Err(format!("{area}: zeros only, so the build was refused"));
    }
    let answer = Answer::read(&answer).map_err(|broken| format!("{area}: {broken}"))?;
    let text = match source {
        Some(path) => Some(fs::read_to_string(path).map_err(|error| format!("{path}: {error}"))?),
        None => None,
    };
    let text = text.as_deref().map(Text);
    let case = Case {
        title: path,
        file: &file,
        bytes: bytes.len(),
        root,
        source: text.as_ref(),
    };
    accepted(&case, &answer)
}
