//! Writes random tree files, or prints one in the text form.

use generate::{case, Case};
use std::path::Path;
use std::process::ExitCode;
use treefile::source::Source;
use treefile::{text, File};

const USAGE: &str = "usage: generate SEED COUNT DIR    writes SEED.tree and SEED.root and so on
       generate print SEED        prints a case in the text form";

fn main() -> ExitCode {
    let args: Vec<String> = std::env::args().skip(1).collect();
    let words: Vec<&str> = args.iter().map(String::as_str).collect();
    let done = match words[..] {
        ["print", seed] => number(seed).map(|seed| print(&case(seed))),
        [seed, count, dir] => number(seed)
            .and_then(|seed| Ok((seed, number(count)?)))
            .and_then(|(seed, count)| write_all(seed, count, Path::new(dir))),
        _ => Err(USAGE.to_string()),
    };
    match done {
        Ok(()) => ExitCode::SUCCESS,
        Err(message) => {
            eprintln!("{message}");
            ExitCode::FAILURE
        }
    }
}

fn number(text: &str) -> Result<u64, String> {
    text.parse()
        .map_err(|_| format!("{text} is no number\n{USAGE}"))
}

/// Prints a case: its label and root name as comments, then its models, or the refusal where it does not open.
fn print(case: &Case) {
    println!("# {}, {} bytes", case.label, case.bytes.len());
    println!("# root {:?}", String::from_utf8_lossy(&case.root));
    match File::open(&case.bytes) {
        Ok(file) => print!("{}", text::print(&Source::of_file(&file))),
        Err(refusal) => println!("# refused: {refusal}"),
    }
}

fn write_all(seed: u64, count: u64, dir: &Path) -> Result<(), String> {
    std::fs::create_dir_all(dir).map_err(|e| format!("{}: {e}", dir.display()))?;
    for seed in (0..count).map(|i| seed.wrapping_add(i)) {
        let case = case(seed);
        write(&dir.join(format!("{seed}.tree")), &case.bytes)?;
        write(&dir.join(format!("{seed}.root")), &case.root)?;
    }
    Ok(())
}

fn write(path: &Path, bytes: &[u8]) -> Result<(), String> {
    std::fs::write(path, bytes).map_err(|e| format!("{}: {e}", path.display()))
}
