//! The two variants of the original agree, and what differs between them is noticed.

mod common;

use common::file;
use oracle::{deep, report_ordered, report_unmodified, same_up_to_order, Run};
use report::{Outcome, Request};
use treefile::{examples, File};

/// The worked examples and some hundred generated cases that keep the layout.
fn cases() -> Vec<(File, Vec<u8>)> {
    let worked = examples::ALL
        .iter()
        .map(|e| (file(e.text), e.root.as_bytes().to_vec()));
    let generated = (0..400)
        .map(generate::case)
        .map(|case| (case.bytes, case.root));
    let opened =
        |(bytes, root): (Vec<u8>, Vec<u8>)| File::open(&bytes).ok().map(|file| (file, root));
    worked.chain(generated).filter_map(opened).collect()
}

#[test]
#[cfg_attr(no_source, ignore = "SKIPPED: the original source is not there")]
fn the_variants_agree_up_to_order() {
    let mut compared = 0;
    deep::call(|| {
        for (file, root) in cases() {
            let (ordered, unmodified) = (
                report_ordered(&file, &root),
                report_unmodified(&file, &root),
            );
            if let (Run::Ended(ordered), Run::Ended(unmodified)) =
                (ordered.unwrap(), unmodified.unwrap())
            {
                same_up_to_order(&ordered, &unmodified).unwrap();
                compared += 1;
            }
        }
    });
    assert!(compared > 100, "{compared}");
}

#[test]
#[cfg_attr(no_source, ignore = "SKIPPED: the original source is not there")]
fn mixed_leftovers_hang_on_the_order() {
    let text = "model root(x(t), y(t)) { x = 1; dot(q) = 1; x(0) = 1 }";
    let opened = File::open(&file(text)).unwrap();
    let built = |run: Run| match run {
        Run::Ended(Outcome::Built(report)) => report,
        run => panic!("{run:?}"),
    };
    let ordered = built(report_ordered(&opened, b"root").unwrap());
    let mut seen = std::collections::BTreeSet::new();
    for _ in 0..200 {
        let unmodified = built(report_unmodified(&opened, b"root").unwrap());
        seen.insert(
            unmodified
                .built
                .errors
                .iter()
                .map(|e| e.kind)
                .collect::<Vec<_>>(),
        );
        same_up_to_order(
            &Outcome::Built(ordered.clone()),
            &Outcome::Built(unmodified),
        )
        .unwrap();
    }
    assert!(seen.len() > 1, "{seen:?}");
}

#[test]
#[cfg_attr(no_source, ignore = "SKIPPED: the original source is not there")]
fn a_difference_is_found() {
    let text = "model root(x(t), y(t)) { x = 1; y = 2; dot(y) = 1; x(0) = q }";
    let opened = File::open(&file(text)).unwrap();
    let Ok(Outcome::Built(report)) = rust_ordered::run(&opened, b"root", &Request::PLAIN) else {
        panic!("{text}");
    };
    let built = Outcome::Built(report.clone());
    let differs = |change: fn(&mut report::Report)| {
        let mut other = report.clone();
        change(&mut other);
        same_up_to_order(&built, &Outcome::Built(other)).is_err()
    };
    assert!(!differs(|_| ()));
    assert!(differs(|other| other.built.errors.truncate(1)));
    assert!(differs(|other| other.built.errors[0].span.0 += 1));
    assert!(differs(|other| other.built.variables[1].time_index = None));
    assert!(differs(|other| other.built.variables[1].conditions.clear()));
    assert!(differs(|other| other.statements[0].right[0].number += 1));
    assert!(differs(|other| other.held[2] = None));
    assert!(differs(|other| other.taken[3] = report::Taken::Left));
}
