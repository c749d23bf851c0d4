//! Runs the original on a tree file: `ModelInfo::build` itself, and its steps beside it.

use crate::continuous::builder::ModelInfo;
use crate::convert::Converter;
use crate::steps::{release, Watch};
use crate::texts::Texts;
use crate::{info, panics};
use report::{agree, Ending, Maps, Outcome, Request};
use treefile::File;

/// Calls `ModelInfo::build`, runs its steps, and holds all that the call gives to what the steps give: an error says
/// where they differ. Where states are decided the call would not end, and the steps are run alone.
pub fn run(file: &File, root: &[u8], request: &Request) -> Result<Outcome, String> {
    run_beside(file, root, request, call)
}

/// The same with a given way to make the call.
pub fn run_beside(
    file: &File,
    root: &[u8],
    request: &Request,
    call: fn(&Watch) -> Ending,
) -> Result<Outcome, String> {
    let texts = Texts::of(file);
    let root = texts.root(file, root);
    let models = Converter {
        file,
        texts: &texts,
        spans: request.spans,
    }
    .models();
    let watch = Watch {
        root: &root,
        models: &models,
        texts: &texts,
        request,
    };
    let (outcome, steps, paired) = match panics::caught(|| watch.steps()) {
        Ok(Ok(w)) => (Outcome::Built(w.report), Ending::Built(w.info), w.paired),
        Ok(Err(text)) => (Outcome::NotFound, Ending::NotFound(text), Vec::new()),
        Err(panic) => (
            Outcome::Panicked(panic.clone()),
            Ending::Panicked(panic),
            Vec::new(),
        ),
    };
    if request.decided.is_empty() {
        agree(&call(&watch), &steps, maps(&paired))?;
    }
    Ok(outcome)
}

/// What this package's maps leave open, where the steps paired these cells.
pub fn maps(paired: &[usize]) -> Maps<'_> {
    match env!("CARGO_PKG_NAME") {
        "rust_ordered" => Maps::Ordered,
        _ => Maps::Hashed { paired },
    }
}

/// What `ModelInfo::build` gives.
pub fn call(watch: &Watch) -> Ending {
    let called = panics::caught(|| {
        let built = ModelInfo::build(watch.root, watch.models)?;
        let info = info::info(&built, watch.texts);
        release(&built);
        Ok(info)
    });
    match called {
        Ok(Ok(info)) => Ending::Built(info),
        Ok(Err(text)) => Ending::NotFound(text),
        Err(panic) => Ending::Panicked(panic),
    }
}
