//! The deepest builds run on a stack of 2 MB.

use builder::build;
use std::thread;

const STACK: usize = 2 << 20;

/// Signs and calls nested as deep as a file allows, and models as deep with a nested argument handed down.
fn deep() -> [String; 3] {
    let signs = format!(
        "model root(x(t)) {{ dot(x) = {}x; x(0) = 1 }}",
        "-".repeat(1_000)
    );
    let (open, close) = ("sin(".repeat(500), ")".repeat(500));
    let calls = format!("model root(x(t)) {{ dot(x) = {open}x{close}; x(0) = 1 }}");
    let mut models = "model M0(a) { a = 1 }\n".to_string();
    for i in 1..31 {
        models += &format!("model M{i}(a) {{ M{}(-a) }}\n", i - 1);
    }
    models += &format!("model root(x(t)) {{ M30({}x) }}", "-".repeat(800));
    [signs, calls, models]
}

#[test]
fn deep_builds() {
    for text in deep() {
        let source = treefile::text::parse(&text).expect("a text");
        let file = source.assemble().to_bytes();
        let building = move || build(&file, b"root").map(|answer| answer.error_count);
        let builder = thread::Builder::new().stack_size(STACK);
        let answer = builder.spawn(building).unwrap().join().unwrap();
        assert_eq!(answer, Ok(0), "{text}");
    }
}
