//! Files that are small and would be endless when flattened are refused by 9, and at once.

use builder::{build, Refusal};
use std::time::{Duration, Instant};

/// Two submodel statements in each of 31 nested models: 2^31 instances.
fn doubled_submodels() -> String {
    let mut models = "model M0(x(t)) { dot(x) = 1 }\n".to_string();
    for i in 1..31 {
        models += &format!("model M{i}(x(t)) {{ M{0}(x); M{0}(x) }}\n", i - 1);
    }
    models + "model root(x(t)) { M30(x); M30(x) }"
}

/// An argument handed on twice in a sum at each of 31 levels: 2^31 nodes.
fn doubled_arguments() -> String {
    let mut models = "model M0(a) { a = 1 }\n".to_string();
    for i in 1..31 {
        models += &format!("model M{i}(a) {{ M{}(a + a) }}\n", i - 1);
    }
    models + "model root(x(t)) { M30(x) }"
}

#[test]
fn refused_at_once() {
    for text in [doubled_submodels(), doubled_arguments()] {
        let source = treefile::text::parse(&text).expect("a text");
        let file = source.assemble().to_bytes();
        let start = Instant::now();
        assert_eq!(build(&file, b"root").err(), Some(Refusal::TooBig));
        assert!(start.elapsed() < Duration::from_secs(1));
    }
}
