//! A C program over the header, compiled with the machine's C compiler and linked with the library.

use std::path::{Path, PathBuf};
use std::process::Command;
use std::{env, fs};
use treefile::examples::P1;

/// The five calls on the first worked example: number, bytes used, bytes kept behind the area, zeros at its end; then the
/// header's words and the statements' fates. The answer ends with a dependent that is 0. An infinity's high word is 2,146,435,072.
const EXPECTED: &str = "\
number 1 used 0 kept 55005 zeros 395
number 5 used 0 kept 55005 zeros 395
number 2 used 0 kept 55005 zeros 395
number 2 used 0 kept 55005 zeros 395
number 0 used 396 kept 16 zeros 54992
6 2 2 1 0 1 0 0 0 2146435072 fate 2 variable 1 fate 1 variable 1 
";

fn repository() -> PathBuf {
    Path::new(env!("CARGO_MANIFEST_DIR")).join("../..")
}

fn compiled(into: &Path) -> PathBuf {
    let program = into.join("calls");
    let compiler = env::var("CC").unwrap_or_else(|_| "cc".to_string());
    let status = Command::new(&compiler)
        .args(["-std=c99", "-Wall", "-Wextra", "-Werror", "-pedantic", "-I"])
        .arg(repository().join("include"))
        .arg(Path::new(env!("CARGO_MANIFEST_DIR")).join("tests/c/calls.c"))
        .arg(repository().join("target/staticlib/libbuilder.a"))
        .arg("-o")
        .arg(&program)
        .status()
        .unwrap_or_else(|error| panic!("{compiler}: {error}"));
    assert!(status.success());
    program
}

#[test]
fn a_c_program_is_told_the_same() {
    let folder = Path::new(env!("CARGO_TARGET_TMPDIR"));
    let file = folder.join("first.tree");
    let source = treefile::text::parse(P1).expect("a text");
    fs::write(&file, source.assemble().to_bytes()).unwrap();
    let output = Command::new(compiled(folder)).arg(&file).output().unwrap();
    assert!(output.status.success());
    assert_eq!(String::from_utf8(output.stdout).unwrap(), EXPECTED);
}
