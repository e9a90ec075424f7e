//! Layer 1's proved functions, for safe Rust.
#![expect(
    unsafe_code,
    reason = "calls proved functions through their C interface"
)]

// SAFETY: as crates/textapi declares them. A slice of Rattle's is a pointer and then a length; a `bool` is Rust's.
unsafe extern "C" {
    fn text_city_hash64(s: *const u8, len: usize) -> u64;
    fn text_lower(c: u32) -> u32;
    fn text_name_id(part: *const u8, len: usize, wide: bool, number: u32) -> u64;
    fn text_put_name(
        out: *mut u8,
        out_len: usize,
        part: *const u8,
        len: usize,
        wide: bool,
        number: u32,
    ) -> u64;
}

/// CityHash64 of some bytes.
pub fn city_hash64(s: &[u8]) -> u64 {
    // SAFETY: pointer and length are those of a live slice, which the call only reads and does not keep.
    unsafe { text_city_hash64(s.as_ptr(), s.len()) }
}

/// A character lowered one to one; a number that is no scalar value stays.
pub fn lower(c: u32) -> u32 {
    // SAFETY: the call takes and gives numbers alone.
    unsafe { text_lower(c) }
}

/// The id of a name: 0 where the part is no text.
pub fn name_id(part: &[u8], wide: bool, number: u32) -> u64 {
    // SAFETY: pointer and length are those of a live slice, which the call only reads and does not keep.
    unsafe { text_name_id(part.as_ptr(), part.len(), wide, number) }
}

/// The rendered name in UTF-8, written to the front of `out`: its length, or `None` where the part is no text or has no room.
pub fn put_name(out: &mut [u8], part: &[u8], wide: bool, number: u32) -> Option<usize> {
    // SAFETY: pointers and lengths are those of live slices. They don't overlap, since one of them is borrowed for writing;
    // the call writes to that one alone, within its length, and keeps neither.
    let n = unsafe {
        text_put_name(
            out.as_mut_ptr(),
            out.len(),
            part.as_ptr(),
            part.len(),
            wide,
            number,
        )
    };
    usize::try_from(n).ok().filter(|n| *n <= out.len())
}
