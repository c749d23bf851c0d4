//! An answer against the original as it is, with its own map: errors sorted, variables by name.

use crate::report::report;
use area::layout::MOST_LISTED;
use area::{Area, Section, Sections};
use oracle::{report_unmodified, same_up_to_order, Run};
use report::{Error, Outcome, Report};
use treefile::File;

/// Compares an accepted build's answer. False where the original would not end or the build is far over a most.
pub fn compare(file: &File, root: &[u8], answer: &[u8]) -> Result<bool, String> {
    let sections = Sections::read(answer).ok_or("the answer's sections do not fill it")?;
    match report_unmodified(file, root)? {
        Run::Ended(Outcome::Built(mut theirs)) => {
            let area = Area::of(&sections);
            let mut own = report(&area).ok_or("a number of the answer does not fit")?;
            let counted = sections.counts()[Section::Errors as usize];
            let all_listed = counted.max(theirs.built.errors.len()) <= MOST_LISTED;
            alike(&mut own, all_listed);
            alike(&mut theirs, all_listed);
            same_up_to_order(&Outcome::Built(own), &Outcome::Built(theirs))
                .map_err(|what| format!("the unmodified original: {what}"))?;
            Ok(true)
        }
        Run::Ended(other) => Err(format!("the unmodified original: {other:?}")),
        Run::Endless | Run::TooBig => Ok(false),
    }
}

/// Leaves out what cannot be compared: a NaN's payload, and where more errors came up than are listed, on either side, the
/// last pass: how many come up in it may hang on the order.
fn alike(report: &mut Report, all_listed: bool) {
    let built = &mut report.built;
    let bounds = built.variables.iter_mut().map(|v| &mut v.bounds);
    for bits in bounds.chain([&mut built.time]).flatten() {
        if f64::from_bits(*bits).is_nan() {
            *bits = f64::NAN.to_bits();
        }
    }
    if !all_listed {
        let steps = |error: &Error| error.kind < 16;
        built.errors.retain(steps);
        built.errors.truncate(MOST_LISTED);
    }
}
