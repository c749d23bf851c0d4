//! The proved builder, linked from the static library that `./prove builder` writes.

mod raw {
    extern "C" {
        /// Each slice is a pointer and a length.
        pub fn build(
            file: *const u8,
            file_length: usize,
            root: *const u8,
            root_length: usize,
            area: *mut u8,
            area_length: usize,
        ) -> u64;
    }
}

/// Builds the model that the root name names in a tree file and writes the answer into the area, with zeros behind it;
/// a refusal leaves zeros only. Returns the number and the bytes used, which [`number`] and [`used`] give.
pub fn build(file: &[u8], root: &[u8], area: &mut [u8]) -> u64 {
    // SAFETY: each pointer comes with the length of the slice that it is taken from, the area is lent to nobody else,
    // and the builder keeps none of them. It asks nothing of the bytes.
    unsafe {
        raw::build(
            file.as_ptr(),
            file.len(),
            root.as_ptr(),
            root.len(),
            area.as_mut_ptr(),
            area.len(),
        )
    }
}

/// The number in what [`build`] returned: 0 where it is accepted, else the refusal.
pub fn number(returned: u64) -> u32 {
    returned as u32
}

/// The bytes used of the area, in what [`build`] returned.
pub fn used(returned: u64) -> u32 {
    (returned >> 32) as u32
}
