//! A case that ends the process leaves its input on disk: a signal handler writes it.

use crate::sys;
use generate::Case;
use std::ffi::{c_int, c_void, CString};
use std::fs;
use std::path::Path;
use std::ptr::null_mut;
use std::sync::atomic::{AtomicPtr, AtomicUsize, Ordering::SeqCst};

/// A case that takes longer is taken to be endless.
const SECONDS: u32 = 60;
/// The process's status after such a case.
pub const STATUS: c_int = 3;

/// The names of the two files, ending in 0.
static PATHS: [AtomicPtr<u8>; 2] = [const { AtomicPtr::new(null_mut()) }; 2];
/// The bytes of the file and of the root name of the case that is being run; nothing between cases.
static STARTS: [AtomicPtr<u8>; 2] = [const { AtomicPtr::new(null_mut()) }; 2];
static LENGTHS: [AtomicUsize; 2] = [const { AtomicUsize::new(0) }; 2];

/// From now on a signal that ends the process writes `crash.tree` and `crash.root` in this folder first.
pub fn watch(folder: &Path) -> std::io::Result<()> {
    fs::create_dir_all(folder)?;
    for (path, name) in PATHS.iter().zip(["crash.tree", "crash.root"]) {
        let full = folder.join(name).into_os_string().into_encoded_bytes();
        path.store(CString::new(full)?.into_raw().cast(), SeqCst);
    }
    sys::own_stack();
    for signal in [
        sys::SIGSEGV,
        sys::SIGBUS,
        sys::SIGILL,
        sys::SIGFPE,
        sys::SIGABRT,
        sys::SIGALRM,
    ] {
        sys::handle(signal, write_case);
    }
    Ok(())
}

/// Runs `f` as part of this case.
pub fn within<R>(case: &Case, f: impl FnOnce() -> R) -> R {
    for (i, bytes) in [&case.bytes, &case.root].into_iter().enumerate() {
        LENGTHS[i].store(bytes.len(), SeqCst);
        STARTS[i].store(bytes.as_ptr().cast_mut(), SeqCst);
    }
    // SAFETY: sets a clock.
    unsafe { sys::alarm(SECONDS) };
    let result = f();
    // SAFETY: stops it.
    unsafe { sys::alarm(0) };
    STARTS
        .iter()
        .for_each(|start| start.store(null_mut(), SeqCst));
    result
}

/// Writes the case and ends the process. Calls nothing but what a handler may call.
pub extern "C" fn write_case(signal: c_int, _: *mut c_void, _: *mut c_void) {
    for i in 0..2 {
        let (path, start) = (PATHS[i].load(SeqCst), STARTS[i].load(SeqCst));
        if path.is_null() || start.is_null() {
            continue;
        }
        // SAFETY: the path ends in 0 and is never freed; the case's bytes live until `within` is over.
        unsafe {
            let file = sys::open(path.cast(), sys::O_WRONLY_CREAT_TRUNC, 0o644);
            sys::write(file, start.cast(), LENGTHS[i].load(SeqCst));
            sys::close(file);
        }
    }
    let mut told = *b"\nCRASHED: signal 00; the case is in target/fuzz/crash.tree and .root\n";
    told[17] += (signal / 10) as u8;
    told[18] += (signal % 10) as u8;
    // SAFETY: writes to standard error and ends the process.
    unsafe {
        sys::write(2, told.as_ptr().cast(), told.len());
        sys::_exit(STATUS)
    }
}
