//! The few calls of the C library that are needed, on Linux.

use std::ffi::{c_char, c_int, c_uint, c_void};

pub const PROT_NONE: c_int = 0;
pub const PROT_READ: c_int = 1;
pub const PROT_WRITE: c_int = 2;
pub const PROT_EXEC: c_int = 4;
/// Pages of this process alone, of no file, that take memory only where they are written.
pub const MAP_OWN: c_int = 0x4022;

pub const SIGILL: c_int = 4;
pub const SIGTRAP: c_int = 5;
pub const SIGABRT: c_int = 6;
pub const SIGBUS: c_int = 7;
pub const SIGFPE: c_int = 8;
pub const SIGSEGV: c_int = 11;
pub const SIGALRM: c_int = 14;

const SA_SIGINFO: c_int = 4;
const SA_ONSTACK: c_int = 0x0800_0000;

pub const O_WRONLY_CREAT_TRUNC: c_int = 0o1101;

/// A page's bytes.
pub const PAGE: usize = 4096;

/// What is called on a signal: its number, what is known of it, and the registers.
pub type Handler = extern "C" fn(c_int, *mut c_void, *mut c_void);

#[repr(C)]
struct Action {
    handler: Handler,
    mask: [u64; 16],
    flags: c_int,
    restorer: usize,
}

#[repr(C)]
struct Stack {
    start: *mut c_void,
    flags: c_int,
    size: usize,
}

extern "C" {
    pub fn mmap(
        at: *mut c_void,
        length: usize,
        protection: c_int,
        flags: c_int,
        file: c_int,
        offset: i64,
    ) -> *mut c_void;
    pub fn mprotect(at: *mut c_void, length: usize, protection: c_int) -> c_int;
    pub fn alarm(seconds: c_uint) -> c_uint;
    pub fn open(path: *const c_char, flags: c_int, mode: c_uint) -> c_int;
    pub fn write(file: c_int, bytes: *const c_void, length: usize) -> isize;
    pub fn close(file: c_int) -> c_int;
    pub fn _exit(status: c_int) -> !;
    fn sigaction(signal: c_int, action: *const Action, old: *mut Action) -> c_int;
    fn sigaltstack(stack: *const Stack, old: *mut Stack) -> c_int;
}

/// Has a signal handled, on the stack of [`own_stack`] where there is one.
pub fn handle(signal: c_int, handler: Handler) {
    let action = Action {
        handler,
        mask: [0; 16],
        flags: SA_SIGINFO | SA_ONSTACK,
        restorer: 0,
    };
    // SAFETY: the structure is laid out as the C library has it, and the handler lives as long as the program.
    let failed = unsafe { sigaction(signal, &action, std::ptr::null_mut()) };
    assert_eq!(failed, 0, "a handler for signal {signal}");
}

/// Gives this thread a stack of its own for handlers, so that one runs where the thread's stack has overflowed too.
pub fn own_stack() {
    let bytes = Box::leak(vec![0u8; 16 * PAGE].into_boxed_slice());
    let stack = Stack {
        start: bytes.as_mut_ptr().cast(),
        flags: 0,
        size: bytes.len(),
    };
    // SAFETY: the bytes are never freed and nothing else uses them.
    let failed = unsafe { sigaltstack(&stack, std::ptr::null_mut()) };
    assert_eq!(failed, 0, "a stack for handlers");
}
