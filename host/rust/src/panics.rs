//! Runs a piece of the original with panics caught, silently, and tells its three panics apart by the line they arise in.

use report::Panic;
use std::cell::{Cell, RefCell};
use std::panic::{catch_unwind, set_hook, take_hook, AssertUnwindSafe, PanicHookInfo};
use std::sync::Once;

/// The source that panics point into, as it was compiled.
const BUILDER: &str = include_str!(concat!(env!("OUT_DIR"), "/builder.rs"));

/// A part of each line that may panic.
const PLACES: [(&str, Panic); 3] = [
    ("if dep_var.borrow().is_time() {", Panic::SelfListed),
    ("submodel.unknowns[i]", Panic::BeyondUnknowns),
    ("&args[time_index].kind", Panic::BeyondArguments),
];

thread_local! {
    static CATCHING: Cell<bool> = const { Cell::new(false) };
    static LAST: RefCell<Option<Panic>> = const { RefCell::new(None) };
}

/// What `f` returns, or the panic that it ended with.
pub fn caught<R>(f: impl FnOnce() -> R) -> Result<R, Panic> {
    static HOOK: Once = Once::new();
    HOOK.call_once(|| {
        let previous = take_hook();
        set_hook(Box::new(move |info| {
            if CATCHING.get() {
                LAST.set(Some(place(info)));
            } else {
                previous(info);
            }
        }));
    });
    CATCHING.set(true);
    let result = catch_unwind(AssertUnwindSafe(f));
    CATCHING.set(false);
    result.map_err(|_| {
        LAST.take()
            .unwrap_or(Panic::Other("no message".to_string()))
    })
}

/// The panic's place among the known ones.
fn place(info: &PanicHookInfo) -> Panic {
    let line = info
        .location()
        .filter(|at| at.file().ends_with("builder.rs"))
        .and_then(|at| BUILDER.lines().nth(at.line() as usize - 1))
        .unwrap_or("");
    PLACES
        .iter()
        .find(|(part, _)| line.contains(part))
        .map(|(_, panic)| panic.clone())
        .unwrap_or_else(|| Panic::Other(format!("{info}")))
}
