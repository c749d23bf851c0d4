//! `cargo run -p builder --example fates TREEFILE ROOT`: builds a model and prints each flattened statement's fate, or
//! the refusal and who can mend it.

use std::process::ExitCode;
use std::{env, fs};

fn main() -> ExitCode {
    let arguments: Vec<String> = env::args().skip(1).collect();
    let [path, root] = &arguments[..] else {
        eprintln!("usage: fates TREEFILE ROOT");
        return ExitCode::from(2);
    };
    let file = match fs::read(path) {
        Ok(file) => file,
        Err(error) => {
            eprintln!("{path}: {error}");
            return ExitCode::from(2);
        }
    };
    match builder::build(&file, root.as_bytes()) {
        Ok(answer) => {
            for (number, statement) in answer.statements.iter().enumerate() {
                let fate = statement.fate;
                let variable = fate
                    .variable()
                    .map_or(String::new(), |v| format!(" of variable {v}"));
                println!("statement {number}: {}{variable}", fate.words());
            }
            println!("{} errors", answer.error_count);
            ExitCode::from(u8::from(!answer.is_clean()))
        }
        Err(refusal) => {
            println!("refused by {}: {refusal}", refusal.number());
            ExitCode::FAILURE
        }
    }
}
