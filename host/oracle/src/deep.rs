//! Work on a thread with a deep stack: the original descends trees by recursion.

use std::cell::Cell;
use std::panic::resume_unwind;
use std::thread;

const STACK: usize = 512 << 20;

thread_local! {
    static DEEP: Cell<bool> = const { Cell::new(false) };
}

/// What `f` returns. Starts a thread unless this one is deep already, so wrap a whole series of cases in one call.
pub fn call<R: Send>(f: impl FnOnce() -> R + Send) -> R {
    if DEEP.get() {
        return f();
    }
    thread::scope(|scope| {
        let deep = move || {
            DEEP.set(true);
            f()
        };
        let worker = thread::Builder::new()
            .stack_size(STACK)
            .spawn_scoped(scope, deep);
        worker
            .expect("a thread")
            .join()
            .unwrap_or_else(|panic| resume_unwind(panic))
    })
}
