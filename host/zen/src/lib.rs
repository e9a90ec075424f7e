//! Layer 2's proved functions, for safe Rust. Each call reads its block anew.
#![expect(
    unsafe_code,
    reason = "calls proved functions through their C interface"
)]

// SAFETY: as crates/zenapi declares them. A slice of Rattle's is a pointer and then a length.
unsafe extern "C" {
    fn zen_check_script(b: *const u8, len: usize) -> u64;
    fn zen_object(b: *const u8, len: usize, i: usize, field: u32) -> u64;
    fn zen_check_package(b: *const u8, len: usize) -> u64;
    fn zen_package_count(b: *const u8, len: usize, what: u32) -> u64;
    fn zen_export(b: *const u8, len: usize, i: usize, field: u32) -> u64;
    fn zen_hash(b: *const u8, len: usize, i: usize) -> u64;
    fn zen_imported_id(b: *const u8, len: usize, i: usize) -> u64;
    fn zen_names_ends(b: *const u8, len: usize) -> u64;
    fn zen_put_name(
        out: *mut u8,
        out_len: usize,
        b: *const u8,
        len: usize,
        which: u32,
        i: usize,
    ) -> u64;
}

/// The answer where a block is refused or has no such part. An index or a hash may be the same number.
pub const NONE: u64 = u64::MAX;

/// The refusal of a script block, or 0.
pub fn check_script(b: &[u8]) -> u64 {
    // SAFETY: pointer and length are those of a live slice, which the call only reads and does not keep.
    unsafe { zen_check_script(b.as_ptr(), b.len()) }
}

/// Object i of a script block: name index, number, global index, outer.
pub fn object(b: &[u8], i: usize) -> [u64; 4] {
    [0, 1, 2, 3].map(|field| {
        // SAFETY: pointer and length are those of a live slice, which the call only reads and does not keep.
        unsafe { zen_object(b.as_ptr(), b.len(), i, field) }
    })
}

/// The refusal of a package block, or 0.
pub fn check_package(b: &[u8]) -> u64 {
    // SAFETY: pointer and length are those of a live slice, which the call only reads and does not keep.
    unsafe { zen_check_package(b.as_ptr(), b.len()) }
}

/// How many names, exports, public hashes and imported names a package has.
pub fn counts(b: &[u8]) -> [u64; 4] {
    [0, 1, 2, 3].map(|what| {
        // SAFETY: pointer and length are those of a live slice, which the call only reads and does not keep.
        unsafe { zen_package_count(b.as_ptr(), b.len(), what) }
    })
}

/// Export i of a package: name index, number, outer, class, super, public hash.
pub fn export(b: &[u8], i: usize) -> [u64; 6] {
    [0, 1, 2, 3, 4, 5].map(|field| {
        // SAFETY: pointer and length are those of a live slice, which the call only reads and does not keep.
        unsafe { zen_export(b.as_ptr(), b.len(), i, field) }
    })
}

/// Public hash i of a package.
pub fn hash(b: &[u8], i: usize) -> u64 {
    // SAFETY: pointer and length are those of a live slice, which the call only reads and does not keep.
    unsafe { zen_hash(b.as_ptr(), b.len(), i) }
}

/// The id of a package's imported name i.
pub fn imported_id(b: &[u8], i: usize) -> u64 {
    // SAFETY: pointer and length are those of a live slice, which the call only reads and does not keep.
    unsafe { zen_imported_id(b.as_ptr(), b.len(), i) }
}

/// Where the bases of a package's exports end in the block, added up.
pub fn names_ends(b: &[u8]) -> u64 {
    // SAFETY: pointer and length are those of a live slice, which the call only reads and does not keep.
    unsafe { zen_names_ends(b.as_ptr(), b.len()) }
}

/// Which texts of a package are meant.
#[derive(Debug, Clone, Copy)]
pub enum Texts {
    /// the names of its batch
    Bases = 0,
    /// the imported names, rendered
    Imported = 1,
}

/// Text i of a package in UTF-8, written to the front of `out`: its length, or `None` where it is not there or has no room.
pub fn put_name(out: &mut [u8], b: &[u8], which: Texts, i: usize) -> Option<usize> {
    // SAFETY: pointers and lengths are those of live slices. They don't overlap, since one of them is borrowed for writing;
    // the call writes to that one alone, within its length, and keeps neither.
    let n = unsafe {
        zen_put_name(
            out.as_mut_ptr(),
            out.len(),
            b.as_ptr(),
            b.len(),
            which as u32,
            i,
        )
    };
    usize::try_from(n).ok().filter(|n| *n <= out.len())
}
