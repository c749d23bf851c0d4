//! Copies the original source files into the build folder. The text stays as it is but for the import of `HashMap` in
//! `rust_ordered` and a module appended to builder.rs that lets the tests look at private parts.

mod source;

use std::path::{Path, PathBuf};
use std::{env, fs};

fn main() {
    println!("cargo::rerun-if-changed=../rust/build.rs");
    let Some(files) = source::files() else {
        return;
    };
    let ordered = env::var("CARGO_PKG_NAME").unwrap() == "rust_ordered";
    let [mut builder, mut ast, functions] = files.map(|file| fs::read_to_string(file).unwrap());
    if ordered {
        builder = exchange(
            &builder,
            "use std::collections::HashMap;",
            "use crate::ordered::HashMap;",
        );
        ast = exchange(
            &ast,
            "use std::collections::{HashMap, HashSet};",
            "use {crate::ordered::HashMap, std::collections::HashSet};",
        );
    }
    let here = PathBuf::from(env::var("CARGO_MANIFEST_DIR").unwrap());
    let access = here.join("../rust/src/access.rs");
    builder += &format!("\n#[path = {access:?}]\npub mod access;\n");
    let out = PathBuf::from(env::var("OUT_DIR").unwrap());
    fs::write(out.join("builder.rs"), builder).unwrap();
    fs::write(out.join("ast.rs"), ast).unwrap();
    fs::write(out.join("functions.rs"), functions).unwrap();
    fs::write(out.join("modules.rs"), modules(&out)).unwrap();
}

/// The text with its one line `old` exchanged.
fn exchange(text: &str, old: &str, new: &str) -> String {
    assert_eq!(text.lines().filter(|line| *line == old).count(), 1, "{old}");
    text.replacen(old, new, 1)
}

/// The module tree that the copied files expect.
fn modules(out: &Path) -> String {
    let module = |name: &str| {
        let path = out.join(format!("{name}.rs"));
        format!("#[allow(warnings)]\n#[path = {path:?}]\npub mod {name};\n")
    };
    let (ast, builder, functions) = (module("ast"), module("builder"), module("functions"));
    format!(
        "{ast}pub mod continuous {{\n{builder}}}\n\
         pub mod execution {{\n{functions}pub use crate::shims::scalar;\n}}\n"
    )
}
