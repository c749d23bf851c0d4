//! A case that failed, kept in files.

use oracle::Failure;
use std::path::Path;
use std::{fs, io};

/// Writes the file, the root name and what went wrong, as `smallest.tree`, `smallest.root` and `smallest.txt`.
pub fn keep(failure: &Failure, folder: &Path) -> io::Result<()> {
    fs::create_dir_all(folder)?;
    fs::write(folder.join("smallest.tree"), &failure.bytes)?;
    fs::write(folder.join("smallest.root"), &failure.root)?;
    fs::write(folder.join("smallest.txt"), failure.to_string())
}
