//! The proved calls, for safe Rust.
#![expect(
    unsafe_code,
    reason = "calls a proved function through its C interface"
)]

mod header;
mod verify;

pub use header::class_header;
pub use verify::class_verify;

mod c {
    // SAFETY: as crates/capi declares it. A slice of Rattle's is a pointer and then a length.
    unsafe extern "C" {
        pub(super) fn class_report(
            corpus: *const u8,
            corpus_len: usize,
            lookups: u32,
            objects: u32,
            work: *mut u8,
            work_len: usize,
            report: *mut u8,
            report_len: usize,
        ) -> u64;
    }
}

/// Document 01's call, within so many class lookups and objects (64 and 65 there): writes the report of a corpus to the
/// front of `report` and gives its length, or gives the number of a refusal and leaves `report` as it was. `work` may
/// hold anything, and does afterwards.
pub fn class_report(
    corpus: &[u8],
    lookups: u32,
    objects: u32,
    work: &mut [u8],
    report: &mut [u8],
) -> u64 {
    // SAFETY: pointers and lengths are those of live slices. None of them overlap, since two are borrowed for writing; the
    // call writes to those two alone, within their lengths, and keeps none.
    unsafe {
        c::class_report(
            corpus.as_ptr(),
            corpus.len(),
            lookups,
            objects,
            work.as_mut_ptr(),
            work.len(),
            report.as_mut_ptr(),
            report.len(),
        )
    }
}
