//! Where build scripts find the original source files, and that they are the pinned ones.

#[path = "sha256.rs"]
pub mod sha256;

use std::path::{Path, PathBuf};
use std::{env, fs};

/// builder.rs, ast/mod.rs and functions.rs with their hashes, in the form of `sha256sum`.
pub const PINNED: &str = include_str!("original.sha256");

/// A file that must have this hash.
pub struct Pinned {
    pub file: PathBuf,
    pub hash: String,
}

impl Pinned {
    /// The files of a list, in this folder.
    pub fn all(list: &str, folder: &Path) -> Vec<Pinned> {
        let pinned = list.lines().filter_map(|line| {
            let (hash, file) = line.split_once("  ")?;
            let (file, hash) = (folder.join(file), hash.to_string());
            Some(Pinned { file, hash })
        });
        pinned.collect()
    }

    /// What is wrong with the file, if it is another than the pinned one.
    pub fn difference(&self) -> Option<String> {
        let file = self.file.display();
        let hash = match fs::read(&self.file) {
            Ok(bytes) => sha256::hex(&bytes),
            Err(error) => return Some(format!("{file}: {error}")),
        };
        (hash != self.hash).then(|| {
            format!(
                "{file} is not the original that the comparison is made with: its SHA-256 is {hash}, \
                 host/rust/original.sha256 has {}",
                self.hash
            )
        })
    }
}

/// The three files, from the folder in ORACLE_SRC or else from the one beside the repository. Where one of them is not
/// there, the cfg `no_source` is set; where one is not the pinned one, the build fails.
pub fn files() -> Option<[PathBuf; 3]> {
    println!("cargo::rustc-check-cfg=cfg(no_source)");
    println!("cargo::rerun-if-env-changed=ORACLE_SRC");
    for own in ["source.rs", "sha256.rs", "original.sha256"] {
        println!("cargo::rerun-if-changed=../rust/{own}");
    }
    let beside = || {
        let here = env::var("CARGO_MANIFEST_DIR").expect("set by cargo");
        PathBuf::from(here).join("../../../shared/docs/src")
    };
    let folder = env::var_os("ORACLE_SRC").map_or_else(beside, PathBuf::from);
    let pinned = Pinned::all(PINNED, &folder);
    for Pinned { file, .. } in &pinned {
        println!("cargo::rerun-if-changed={}", file.display());
    }
    if !pinned.iter().all(|pinned| pinned.file.is_file()) {
        println!("cargo::rustc-cfg=no_source");
        return None;
    }
    for difference in pinned.iter().filter_map(Pinned::difference) {
        println!("cargo::error={difference}");
    }
    let files: Vec<PathBuf> = pinned.into_iter().map(|pinned| pinned.file).collect();
    Some(files.try_into().expect("three files are pinned"))
}
