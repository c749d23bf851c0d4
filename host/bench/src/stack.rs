//! How much stack a build uses: it runs on a thread whose stack is lent to it, filled with a pattern, and what was
//! overwritten is looked at afterwards.

use area::layout::MOST_BYTES;
use generate::Case;
use std::ffi::{c_int, c_ulong, c_void};
use std::ptr;

/// The stack lent to the thread.
const SIZE: usize = 16 << 20;
const ALIGN: usize = 4096;
const PATTERN: u8 = 0xa5;

/// Room for a `pthread_attr_t`, which has 56 bytes here.
#[repr(C, align(16))]
struct Attributes([u8; 128]);

type Start = extern "C" fn(*mut c_void) -> *mut c_void;

extern "C" {
    fn pthread_attr_init(attributes: *mut Attributes) -> c_int;
    fn pthread_attr_setstack(attributes: *mut Attributes, low: *mut c_void, size: usize) -> c_int;
    fn pthread_attr_destroy(attributes: *mut Attributes) -> c_int;
    fn pthread_create(
        thread: *mut c_ulong,
        attributes: *const Attributes,
        start: Start,
        argument: *mut c_void,
    ) -> c_int;
    fn pthread_join(thread: c_ulong, result: *mut *mut c_void) -> c_int;
}

/// What the thread works on.
struct Work<'w> {
    cases: &'w [Case],
    area: Vec<u8>,
}

/// Builds each case; it must not panic.
extern "C" fn build_all(work: *mut c_void) -> *mut c_void {
    // SAFETY: `overwritten` hands a `Work` over, and waits for the thread before it touches it again.
    let work = unsafe { &mut *work.cast::<Work>() };
    for case in work.cases {
        builder_sys::build(&case.bytes, &case.root, &mut work.area);
    }
    ptr::null_mut()
}

/// The most stack that the build of one of these cases uses, in bytes, without what a thread uses that builds nothing.
pub fn used(cases: &[Case]) -> usize {
    overwritten(cases) - overwritten(&[])
}

/// The bytes from the lowest one that was overwritten up to the top of the stack.
fn overwritten(cases: &[Case]) -> usize {
    let mut memory = vec![PATTERN; SIZE + ALIGN];
    let low = memory.as_ptr().align_offset(ALIGN);
    let stack = &mut memory[low..low + SIZE];
    let mut work = Work {
        cases,
        area: vec![0; MOST_BYTES],
    };
    run_on(stack, &mut work);
    let untouched = stack.iter().take_while(|byte| **byte == PATTERN).count();
    assert!(untouched > 0, "the stack is used up");
    SIZE - untouched
}

fn run_on(stack: &mut [u8], work: &mut Work) {
    let mut attributes = Attributes([0; 128]);
    let mut thread = 0;
    // SAFETY: the stack and the work are lent until the thread has ended, and nobody else uses them meanwhile.
    let results = unsafe {
        let low = stack.as_mut_ptr().cast();
        let argument = ptr::from_mut(work).cast();
        [
            pthread_attr_init(&mut attributes),
            pthread_attr_setstack(&mut attributes, low, stack.len()),
            pthread_create(&mut thread, &attributes, build_all, argument),
            pthread_join(thread, ptr::null_mut()),
            pthread_attr_destroy(&mut attributes),
        ]
    };
    assert_eq!(results, [0; 5], "a thread");
}
