//! The programs `tree`, `sheet` and `witness`, with their exit status.

use std::fs;
use std::path::{Path, PathBuf};
use std::process::{Command, Output};

fn scratch(name: &str) -> PathBuf {
    Path::new(env!("CARGO_TARGET_TMPDIR")).join(name)
}

/// Runs a program in the repository's folder.
fn run(program: &str, arguments: &[&str]) -> Output {
    let mut command = Command::new(program);
    command.current_dir(concat!(env!("CARGO_MANIFEST_DIR"), "/../.."));
    command.args(arguments).output().expect("the program runs")
}

fn status(output: &Output) -> Option<i32> {
    output.status.code()
}

const MODEL: &str = "examples/freeze_drying.model";

#[test]
fn witness() {
    let program = env!("CARGO_BIN_EXE_witness");
    let shown = run(program, &[MODEL, "root"]);
    let expected = concat!(
        env!("CARGO_MANIFEST_DIR"),
        "/../../examples/freeze_drying.sheet"
    );
    assert_eq!(status(&shown), Some(0));
    assert!(shown.stdout == fs::read(expected).unwrap());
    let refused = run(program, &[MODEL, "nowhere"]);
    assert_eq!(status(&refused), Some(1));
    let text = String::from_utf8(refused.stdout).unwrap();
    assert!(text.contains("REFUSED by 5") && text.contains("to mend    the caller"));
    assert_eq!(status(&run(program, &[MODEL, "shelf"])), Some(0));
    let wrong = scratch("wrong.model");
    fs::write(&wrong, "model root(x(t)) { dot(x) = y; x(0) = 1 }").unwrap();
    assert_eq!(
        status(&run(program, &[wrong.to_str().unwrap(), "root"])),
        Some(1)
    );
    fs::write(&wrong, "model root(x(t) { }").unwrap();
    let unread = run(program, &[wrong.to_str().unwrap(), "root"]);
    assert_eq!(status(&unread), Some(2));
    assert!(String::from_utf8(unread.stderr)
        .unwrap()
        .contains("line 1, column 17"));
    assert_eq!(status(&run(program, &["no.model", "root"])), Some(2));
    assert_eq!(status(&run(program, &[])), Some(2));
}

#[test]
fn from_a_tree_file_and_an_area_file_to_the_same_sheet() {
    let (tree, area) = (scratch("model.tree"), scratch("model.area"));
    let [tree, area] = [&tree, &area].map(|path| path.to_str().unwrap());
    assert_eq!(
        status(&run(env!("CARGO_BIN_EXE_tree"), &[MODEL, tree])),
        Some(0)
    );
    let answer = {
        let mut answer = vec![0; builder::layout::MOST_BYTES];
        let used = builder::build_into(&fs::read(tree).unwrap(), b"root", &mut answer).unwrap();
        answer.truncate(used);
        answer
    };
    fs::write(area, &answer).unwrap();
    let program = env!("CARGO_BIN_EXE_sheet");
    let with_source = run(program, &[tree, "root", area, MODEL]);
    let witnessed = run(env!("CARGO_BIN_EXE_witness"), &[MODEL, "root"]);
    assert_eq!(status(&with_source), Some(0));
    let text = |output: Output| String::from_utf8(output.stdout).unwrap();
    assert_eq!(text(with_source).replace(tree, MODEL), text(witnessed));
    let without = text(run(program, &[tree, "root", area]));
    assert!(without.contains("REPLACED") && without.contains("bytes"));
    let of_another_root = run(program, &[tree, "shelf", area]);
    assert_eq!(status(&of_another_root), Some(1));
    assert!(text(of_another_root).contains("NOT EQUAL"));
    fs::write(area, [0; 100]).unwrap();
    let zeros = run(program, &[tree, "root", area]);
    assert_eq!(status(&zeros), Some(2));
    assert!(String::from_utf8(zeros.stderr)
        .unwrap()
        .contains("zeros only"));
}
