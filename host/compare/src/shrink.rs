//! From a case that fails to a smaller one that fails too.

use crate::Series;
use oracle::{deep, Failure};
use treefile::source::{Domain, ExprKind, Source, StmtKind};
use treefile::File;

/// The seed for the garbage of smaller cases.
const SEED: u64 = 1;

/// Leaves out one thing after the other as long as the case still fails. A file that is damaged stays as it is.
pub fn smallest(failure: Failure) -> Failure {
    deep::call(|| {
        let mut best = failure;
        while let Some(smaller) = smaller(&best) {
            best = smaller;
        }
        best
    })
}

/// The first smaller file that fails.
fn smaller(failure: &Failure) -> Option<Failure> {
    let file = File::open(&failure.bytes).ok()?;
    let sources = without_one(&Source::of_file(&file)).into_iter();
    let files = sources.map(|source| source.assemble().to_bytes());
    let mut shorter = files.filter(|bytes| bytes.len() < failure.bytes.len());
    shorter.find_map(|bytes| fails(bytes, failure.root.clone()))
}

fn fails(bytes: Vec<u8>, root: Vec<u8>) -> Option<Failure> {
    let label = "smaller";
    let case = generate::Case { bytes, root, label };
    let mut series = Series::default();
    series.run(&case, SEED);
    series.failures.pop()
}

/// Every source that lacks a model, a statement, an unknown, a dependent or a domain, or has a number for a right side.
fn without_one(source: &Source) -> Vec<Source> {
    let mut sources = Vec::new();
    let mut with = |change: &dyn Fn(&mut Source)| {
        let mut changed = source.clone();
        change(&mut changed);
        sources.push(changed);
    };
    for (m, model) in source.models.iter().enumerate() {
        with(&|s| drop(s.models.remove(m)));
        for i in 0..model.stmts.len() {
            with(&|s| drop(s.models[m].stmts.remove(i)));
            with(&|s| plain_right(&mut s.models[m].stmts[i].kind));
        }
        for (i, unknown) in model.unknowns.iter().enumerate() {
            with(&|s| drop(s.models[m].unknowns.remove(i)));
            with(&|s| s.models[m].unknowns[i].domain = Domain::None);
            for d in 0..unknown.dependents.len() {
                with(&|s| drop(s.models[m].unknowns[i].dependents.remove(d)));
            }
        }
    }
    sources
}

fn plain_right(kind: &mut StmtKind) {
    match kind {
        StmtKind::Equation(_, right) | StmtKind::Rate(_, right) => {
            right.kind = ExprKind::Number(1f64.to_bits());
        }
        StmtKind::Submodel(call) => {
            if let ExprKind::Call(_, arguments) = &mut call.kind {
                arguments.clear();
            }
        }
    }
}
