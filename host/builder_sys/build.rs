//! Links the static library that `./prove builder` writes.

use std::env;
use std::path::PathBuf;

fn main() {
    let here = PathBuf::from(env::var_os("CARGO_MANIFEST_DIR").expect("set by cargo"));
    let folder = here.join("../../target/staticlib");
    let library = folder.join("libbuilder.a");
    println!("cargo::rerun-if-changed=build.rs");
    println!("cargo::rerun-if-changed={}", library.display());
    if !library.is_file() {
        println!(
            "cargo::error=target/staticlib/libbuilder.a is not there: \
             run `./prove builder` in the repository's root first"
        );
        return;
    }
    println!("cargo::rustc-link-search=native={}", folder.display());
    println!("cargo::rustc-link-lib=static=builder");
}
