//! `tree SOURCE.model TREEFILE`: makes a tree file from a model's text.

use std::process::ExitCode;
use std::{env, fs};

fn main() -> ExitCode {
    let arguments: Vec<String> = env::args().skip(1).collect();
    let result = match &arguments[..] {
        [source, file] => tree(source, file),
        _ => Err("usage: tree SOURCE.model TREEFILE".to_string()),
    };
    match result {
        Ok(()) => ExitCode::SUCCESS,
        Err(error) => {
            eprintln!("{error}");
            ExitCode::from(2)
        }
    }
}

fn tree(path: &str, file: &str) -> Result<(), String> {
    let text = fs::read_to_string(path).map_err(|error| format!("{path}: {error}"))?;
    let source = treefile::text::parse(&text).map_err(|error| format!("{path}: {error}"))?;
    fs::write(file, source.assemble().to_bytes()).map_err(|error| format!("{file}: {error}"))
}
