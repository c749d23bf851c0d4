//! `record cases OUT`, `record layout OUT`: records the cases anew. `record unpack PACK DIR`: writes each case of a pack
//! as three files: NNNN.tree, NNNN.root, and NNNN.expect with the number, the bytes used and the used part of the area.

use record::{builds, layout, read, write, Case};
use std::path::Path;
use std::process::ExitCode;
use std::{env, fs, io};

fn main() -> ExitCode {
    let arguments: Vec<String> = env::args().skip(1).collect();
    let arguments: Vec<&str> = arguments.iter().map(String::as_str).collect();
    let result = match arguments[..] {
        ["cases", _] if !oracle::available() => {
            println!("SKIPPED: the original source is not there");
            Ok(())
        }
        ["cases", out] => store(&builds::cases(), out),
        ["layout", out] => store(&layout::cases(), out),
        ["unpack", pack, folder] => unpack(pack, Path::new(folder)),
        _ => {
            eprintln!("usage: record cases OUT | record layout OUT | record unpack PACK DIR");
            return ExitCode::from(2);
        }
    };
    match result {
        Ok(()) => ExitCode::SUCCESS,
        Err(error) => {
            eprintln!("{error}");
            ExitCode::FAILURE
        }
    }
}

fn store(cases: &[Case], out: &str) -> io::Result<()> {
    let bytes = write(cases);
    println!("{} cases, {} bytes", cases.len(), bytes.len());
    fs::write(out, bytes)
}

fn unpack(pack: &str, folder: &Path) -> io::Result<()> {
    fs::create_dir_all(folder)?;
    for (i, case) in read(&fs::read(pack)?).iter().enumerate() {
        let path = |ending: &str| folder.join(format!("{i:04}.{ending}"));
        let used = case.area.len() as u32;
        let expect = [
            &case.number.to_le_bytes()[..],
            &used.to_le_bytes(),
            &case.area,
        ]
        .concat();
        fs::write(path("tree"), &case.file)?;
        fs::write(path("root"), &case.root)?;
        fs::write(path("expect"), expect)?;
    }
    Ok(())
}
