//! The program's files: missing ones, folders, pipes, zeros behind, and long texts in constant memory.

use lines::{area_of, lines, program};
use std::io::Write;
use std::path::{Path, PathBuf};
use std::process::{Command, Stdio};
use std::time::Duration;
use std::{fs, thread};
use treefile::examples::P2;

const PRINTED: &str = "3 7 12\n1 1 15\n1 1 16\n";

/// Where a test keeps its files.
fn scratch(name: &str) -> PathBuf {
    Path::new(env!("CARGO_TARGET_TMPDIR")).join(name)
}

/// P2 over four lines: its text, and the area of its build.
fn p2() -> (String, Vec<u8>) {
    let text = P2
        .replace("{ ", "{\n    ")
        .replace("; ", ";\n    ")
        .replace(" }", "\n}");
    let file = treefile::text::parse(&text).unwrap().assemble().to_bytes();
    let area = area_of(&file, b"root").unwrap();
    (text, area)
}

fn written(name: &str, bytes: &[u8]) -> PathBuf {
    let path = scratch(name);
    fs::write(&path, bytes).expect("written");
    path
}

#[test]
fn a_file_that_is_missing_counts_as_empty() {
    let (text, area) = p2();
    let [area, text] = [
        written("there.area", &area),
        written("there.text", text.as_bytes()),
    ];
    assert_eq!(lines(&[&area, &text]), PRINTED);
    let nothing: [&Path; 0] = [];
    assert_eq!(lines(&nothing), "");
    let missing = scratch("no such file");
    let folder = Path::new(env!("CARGO_MANIFEST_DIR")).to_path_buf();
    for none in [&missing, &folder, &PathBuf::from("")] {
        assert_eq!(lines(&[none, &text]), "");
        assert_eq!(lines(&[&area, none]), "0 0 12\n1 1 15\n1 1 16\n");
    }
    assert_eq!(lines(&[&area]), lines(&[&area, &missing]));
    assert_eq!(lines(&[&area, &text, &missing]), PRINTED);
    let long = PathBuf::from("x".repeat(5000));
    assert_eq!(lines(&[&long, &text]), "");
    assert_eq!(lines(&[&area, &long]), lines(&[&area]));
}

#[test]
fn a_file_that_may_not_be_read_counts_as_empty() {
    // Opens, and no read of it is done: the process's own memory has nothing at byte 0.
    let memory = PathBuf::from("/proc/self/mem");
    let (text, area) = p2();
    let [area, text] = [
        written("read.area", &area),
        written("read.text", text.as_bytes()),
    ];
    assert_eq!(lines(&[&memory, &text]), "");
    assert_eq!(lines(&[&area, &memory]), lines(&[&area]));
}

#[test]
fn zeros_behind_however_many() {
    let (text, area) = p2();
    let text = written("zeros.text", text.as_bytes());
    for zeros in [
        1,
        3,
        65_536 - area.len(),
        65_537,
        70_000,
        200_000,
        3_000_000,
    ] {
        let mut long = area.clone();
        long.resize(area.len() + zeros, 0);
        assert_eq!(lines(&[&written("zeros.area", &long), &text]), PRINTED);
        for at in [area.len(), 65_535, 65_536, long.len() - 1] {
            if area.len() <= at && at < long.len() {
                let mut broken = long.clone();
                broken[at] = 1;
                assert_eq!(lines(&[&written("zeros.area", &broken), &text]), "");
            }
        }
    }
}

/// The last of 256 errors is the bad one, so nothing is printed at all.
#[test]
fn nothing_before_the_whole_area_is_judged() {
    let mut words = vec![0u32; 10];
    words[4] = 300;
    words.extend([1, 0, 0, 0].repeat(256));
    let bytes = |words: &[u32]| -> Vec<u8> { words.iter().flat_map(|w| w.to_le_bytes()).collect() };
    let text = written("last.text", b"");
    let whole = lines(&[&written("last.area", &bytes(&words)), &text]);
    assert_eq!(whole, "1 1 1\n".repeat(256));
    let last = words.len() - 4;
    words[last] = 18;
    assert_eq!(lines(&[&written("last.area", &bytes(&words)), &text]), "");
}

/// What cannot be written is not lost in silence.
#[test]
fn standard_output_that_is_full() {
    let (text, area) = p2();
    let files = [
        written("full.area", &area),
        written("full.text", text.as_bytes()),
    ];
    let full = fs::File::options().write(true).open("/dev/full").unwrap();
    let output = Command::new(program("lines"))
        .args(files)
        .stdout(full)
        .output()
        .unwrap();
    let said = String::from_utf8(output.stderr).unwrap();
    assert!(said.starts_with("lines: standard output: "), "{said}");
}

/// Both files come through pipes, a few bytes at a time.
#[test]
fn pipes_are_read_to_their_end() {
    let (text, area) = p2();
    let fifo = scratch("text.fifo");
    let _ = fs::remove_file(&fifo);
    assert!(Command::new("mkfifo")
        .arg(&fifo)
        .status()
        .unwrap()
        .success());
    let mut command = Command::new(program("lines"));
    let piped = command.arg("/dev/stdin").arg(&fifo);
    let mut child = piped
        .stdin(Stdio::piped())
        .stdout(Stdio::piped())
        .spawn()
        .unwrap();
    let mut stdin = child.stdin.take().unwrap();
    thread::scope(|scope| {
        scope.spawn(move || slowly(&mut stdin, &area));
        let path = &fifo;
        scope.spawn(move || slowly(&mut fs::File::create(path).unwrap(), text.as_bytes()));
    });
    let output = child.wait_with_output().unwrap();
    assert_eq!(String::from_utf8(output.stdout).unwrap(), PRINTED);
}

fn slowly(to: &mut impl Write, bytes: &[u8]) {
    for piece in bytes.chunks(97) {
        to.write_all(piece).unwrap();
        to.flush().unwrap();
        thread::sleep(Duration::from_millis(5));
    }
}

/// A text of 100 MB, in an address space of 16 MB.
#[test]
fn long_texts_in_constant_memory() {
    const LINES: usize = 10_000_000;
    let (_, mut area) = p2();
    let text = written("long.text", "nine byte\n".repeat(LINES).as_bytes());
    let first = area.len() - 3 * 16;
    let end = 10 * LINES as u32;
    for (error, start) in [end - 1, end, end + 1].into_iter().enumerate() {
        let at = first + 16 * error + 4;
        area[at..at + 4].copy_from_slice(&start.to_le_bytes());
        area[at + 4..at + 8].copy_from_slice(&start.to_le_bytes());
    }
    let area = written("long.area", &area);
    let limited = "ulimit -v 16384; exec \"$@\"";
    let mut command = Command::new("bash");
    command.args(["-c", limited, "limited"]);
    command.arg(program("lines")).args([&area, &text]);
    let output = command.output().unwrap();
    let said = String::from_utf8(output.stdout).unwrap();
    let expected = format!("{LINES} 10 12\n{} 1 15\n0 0 16\n", LINES + 1);
    assert_eq!(said, expected);
    fs::remove_file(text).expect("removed");
}
