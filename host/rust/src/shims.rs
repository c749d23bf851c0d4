//! The few items that the original uses from crates that are not here. None of them decides an answer.

use std::ffi::{c_char, c_void};

/// Stands for `pest::Span`, which only words a message.
pub struct Span;

impl Span {
    pub fn new(_: &str, _: usize, _: usize) -> Option<Span> {
        Some(Span)
    }

    pub fn start_pos(&self) -> Position {
        Position
    }
}

/// Stands for a place in the text.
pub struct Position;

impl Position {
    pub fn line_col(&self) -> (usize, usize) {
        (0, 0)
    }
}

/// Stands for `libc::RTLD_DEFAULT`.
pub const RTLD_DEFAULT: *mut c_void = std::ptr::null_mut();

/// Stands for `libc::dlsym` and finds nothing.
///
/// # Safety
/// Nothing is read or called.
pub unsafe fn dlsym(_: *mut c_void, _: *const c_char) -> *mut c_void {
    std::ptr::null_mut()
}

/// Stands for the module of number types.
pub mod scalar {
    /// The two number types.
    #[derive(Clone, Copy, Debug, PartialEq, Eq)]
    pub enum RealType {
        F32,
        F64,
    }

    impl RealType {
        pub fn as_str(&self) -> &'static str {
            match self {
                RealType::F32 => "f32",
                RealType::F64 => "f64",
            }
        }
    }
}
