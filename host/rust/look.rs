//! The build script of packages whose tests need the original source: sets the cfg `no_source` where it is not there.

mod source;

fn main() {
    println!("cargo::rerun-if-changed=../rust/look.rs");
    source::files();
}
