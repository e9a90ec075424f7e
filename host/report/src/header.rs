//! Writing headers: document 02's Q-4.

mod c {
    // SAFETY: as crates/capi declares it. A slice of Rattle's is a pointer and then a length.
    unsafe extern "C" {
        pub(super) fn class_header(
            description: *const u8,
            description_len: usize,
            header: *mut u8,
            header_len: usize,
        ) -> u64;
    }
}

/// Writes the package header that a description in house form describes to the front of `header` and gives its length, or
/// gives the number of a refusal (27, 28) and leaves `header` as it was.
pub fn class_header(description: &[u8], header: &mut [u8]) -> u64 {
    // SAFETY: pointers and lengths are those of live slices. They don't overlap, since one is borrowed for writing; the call
    // writes to that one alone, within its length, and keeps none.
    unsafe {
        c::class_header(
            description.as_ptr(),
            description.len(),
            header.as_mut_ptr(),
            header.len(),
        )
    }
}
