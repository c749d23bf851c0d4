//! The proved programs, run.

use crate::pack::case;
use std::ffi::OsStr;
use std::io::{BufWriter, Write};
use std::path::{Path, PathBuf};
use std::process::{Command, Output, Stdio};
use std::{fs, thread};

/// The path of a program that `rt ci` or `./prove NAME` has proved and linked.
pub fn program(name: &str) -> PathBuf {
    let crates = concat!(env!("CARGO_MANIFEST_DIR"), "/../../crates");
    let path = Path::new(crates).join(name).join("out").join(name);
    let there = path.exists();
    assert!(there, "no program {name}: run `./prove {name}` first");
    path
}

/// Runs `lines`, and gives what it printed.
pub fn lines<A: AsRef<OsStr>>(arguments: &[A]) -> String {
    let output = Command::new(program("lines")).args(arguments).output();
    text_of(output.expect("the program runs"))
}

/// What it prints of an area and a text, by way of two files in this folder.
pub fn lines_of(folder: impl AsRef<Path>, area: &[u8], text: &[u8]) -> String {
    let files = ["lines.area", "lines.text"].map(|name| folder.as_ref().join(name));
    fs::write(&files[0], area).expect("written");
    fs::write(&files[1], text).expect("written");
    lines(&files)
}

/// What a program printed: it says nothing on standard error.
fn text_of(output: Output) -> String {
    assert!(output.status.success(), "{}", output.status);
    assert!(output.stderr.is_empty());
    String::from_utf8(output.stdout).expect("text")
}

/// What `area_cases` says of areas with stated verdicts.
#[derive(Debug, PartialEq, Eq)]
pub struct Judged {
    pub areas: usize,
    pub kept: usize,
    pub broken: usize,
    pub wrong: usize,
}

/// Has the proved test judge areas, each with the verdict that is expected, as fast as they come.
pub fn judged(areas: impl Iterator<Item = (Vec<u8>, bool)> + Send) -> Judged {
    let mut command = Command::new(program("area_cases"));
    let piped = command.stdin(Stdio::piped()).stdout(Stdio::piped());
    let mut child = piped.spawn().expect("the program runs");
    let mut to = BufWriter::new(child.stdin.take().expect("it is piped"));
    thread::scope(|scope| {
        scope.spawn(move || {
            for (area, keeps) in areas {
                to.write_all(&case(&area, keeps)).expect("it reads");
            }
            to.flush().expect("it reads");
        });
        let said = text_of(child.wait_with_output().expect("it ends"));
        let numbers: Vec<usize> = said
            .split_whitespace()
            .filter_map(|w| w.parse().ok())
            .collect();
        let [areas, kept, broken, wrong] = numbers[..] else {
            panic!("{said}");
        };
        assert_eq!(
            said,
            format!("areas {areas} kept {kept} broken {broken} wrong {wrong}\n")
        );
        Judged {
            areas,
            kept,
            broken,
            wrong,
        }
    })
}
