//! `pack_areas PACK`: writes the recorded areas, the standard input of the program `area_cases`.

use std::process::ExitCode;
use std::{env, fs};

fn main() -> ExitCode {
    let arguments: Vec<String> = env::args().skip(1).collect();
    let [pack] = &arguments[..] else {
        eprintln!("usage: pack_areas PACK");
        return ExitCode::from(2);
    };
    match fs::write(pack, lines::pack()) {
        Ok(()) => ExitCode::SUCCESS,
        Err(error) => {
            eprintln!("{pack}: {error}");
            ExitCode::from(2)
        }
    }
}
