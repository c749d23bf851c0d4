//! `witness SOURCE.model ROOT`: from a model's text to its witness sheet. The text is made into a tree file, built by the
//! verified library, and the answer printed. Exit status: 0 where the build is accepted with no errors and the totals are
//! equal, 1 where not, 2 where something cannot be read.

use sheet::{accepted, print, refused, Case, Sheet, Text};
use std::process::ExitCode;
use std::{env, fs};

fn main() -> ExitCode {
    let arguments: Vec<String> = env::args().skip(1).collect();
    let result = match &arguments[..] {
        [source, root] => witness(source, root.as_bytes()),
        _ => Err("usage: witness SOURCE.model ROOT".to_string()),
    };
    print(result)
}

fn witness(path: &str, root: &[u8]) -> Result<Sheet, String> {
    let text = fs::read_to_string(path).map_err(|error| format!("{path}: {error}"))?;
    let source = treefile::text::parse(&text).map_err(|error| format!("{path}: {error}"))?;
    let file = source.assemble();
    let bytes = file.to_bytes();
    match builder::build(&bytes, root) {
        Err(refusal) => Ok(refused(path, root, refusal)),
        Ok(answer) => accepted(
            &Case {
                title: path,
                file: &file,
                bytes: bytes.len(),
                root,
                source: Some(&Text(&text)),
            },
            &answer,
        ),
    }
}
