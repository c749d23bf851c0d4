//! Stands in where the original source files are not there: nothing can be run.

use report::{Outcome, Request, Step};
use treefile::File;

const ABSENT: &str = "the original source is not available; ask available() first";

/// Cannot be called: see [`crate::available`].
pub fn run(_: &File, _: &[u8], _: &Request) -> Result<Outcome, String> {
    panic!("{ABSENT}")
}

/// Cannot be called: see [`crate::available`].
pub fn bare(_: &[u8], _: &[u8], _: impl FnMut(Step)) -> bool {
    panic!("{ABSENT}")
}
