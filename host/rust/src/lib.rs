//! The original builder, `ModelInfo::build`, compiled from its own source files, run on tree files and reported as plain
//! data. Two packages share this source: `rust_ordered`, in which the maps keep the order of insertion, and
//! `rust_unmodified`.

#[cfg(not(no_source))]
mod bare;
#[cfg(not(no_source))]
mod convert;
#[cfg(not(no_source))]
mod extract;
#[cfg(not(no_source))]
mod info;
#[cfg(not(no_source))]
mod messages;
#[cfg(not(no_source))]
pub mod ordered;
#[cfg(not(no_source))]
mod panics;
#[cfg(test)]
mod pins;
#[cfg(not(no_source))]
mod run;
#[cfg(not(no_source))]
pub mod shims;
#[cfg(test)]
#[allow(dead_code)]
#[path = "../source.rs"]
mod source;
#[cfg(not(no_source))]
mod steps;
#[cfg(all(test, not(no_source)))]
mod tests;
#[cfg(not(no_source))]
mod texts;

#[cfg(not(no_source))]
include!(concat!(env!("OUT_DIR"), "/modules.rs"));

// The original names two crates of which it needs a handful of items.
#[cfg(not(no_source))]
extern crate self as libc;
#[cfg(not(no_source))]
extern crate self as pest;
#[cfg(not(no_source))]
pub use shims::{dlsym, Span, RTLD_DEFAULT};

#[cfg(not(no_source))]
pub use {bare::bare, run::run};

#[cfg(no_source)]
mod absent;
#[cfg(no_source)]
pub use absent::{bare, run};

/// Whether the original source files were there when this was compiled.
pub fn available() -> bool {
    cfg!(not(no_source))
}
