//! Pages between two forbidden ones: touching one byte before the first or behind the last ends the process.

use crate::sys::{self, PAGE, PROT_NONE, PROT_READ, PROT_WRITE};
use std::ffi::c_int;
use std::ops::Range;

/// Where bytes stand in their pages.
#[derive(Clone, Copy, Debug, PartialEq, Eq)]
pub enum Side {
    /// Directly behind the forbidden page in front.
    Front,
    /// Directly before the forbidden page behind.
    Back,
}

impl Side {
    /// The other side.
    pub fn other(self) -> Side {
        match self {
            Side::Front => Side::Back,
            Side::Back => Side::Front,
        }
    }
}

/// A run of pages; the page before it and the page behind it are forbidden.
pub struct Pages {
    start: *mut u8,
    length: usize,
}

impl Pages {
    /// Pages for so many bytes, readable and writable. They are never given back.
    pub fn new(bytes: usize) -> Pages {
        let length = bytes.next_multiple_of(PAGE);
        // SAFETY: a mapping of its own, at no given address.
        let all = unsafe {
            sys::mmap(
                std::ptr::null_mut(),
                length + 2 * PAGE,
                PROT_NONE,
                sys::MAP_OWN,
                -1,
                0,
            )
        };
        assert_ne!(all as isize, -1, "pages");
        let start = all.cast::<u8>().wrapping_add(PAGE);
        let pages = Pages { start, length };
        pages.protect(PROT_READ | PROT_WRITE);
        pages
    }

    fn protect(&self, protection: c_int) {
        // SAFETY: the pages are this mapping's own.
        let failed = unsafe { sys::mprotect(self.start.cast(), self.length, protection) };
        assert_eq!(failed, 0, "protection");
    }

    /// The place of so many bytes at a side.
    pub fn place(&self, length: usize, side: Side) -> Range<usize> {
        assert!(length <= self.length, "bytes that fit");
        match side {
            Side::Front => 0..length,
            Side::Back => self.length - length..self.length,
        }
    }

    /// A copy of these bytes at a side, in pages that can only be read now.
    pub fn lend(&mut self, bytes: &[u8], side: Side) -> &[u8] {
        let place = self.place(bytes.len(), side);
        self.protect(PROT_READ | PROT_WRITE);
        self.all()[place.clone()].copy_from_slice(bytes);
        self.protect(PROT_READ);
        // SAFETY: the place is within the pages, which can be read and stay as they are while they are lent.
        unsafe { std::slice::from_raw_parts(self.start.wrapping_add(place.start), place.len()) }
    }

    /// All the bytes, of pages that were never lent.
    pub fn all(&mut self) -> &mut [u8] {
        // SAFETY: the pages are this mapping's own and can be written.
        unsafe { std::slice::from_raw_parts_mut(self.start, self.length) }
    }
}
