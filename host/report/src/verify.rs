//! Document 02's call that checks a build's own hashes.

/// A lent slice as Rattle has it: a pointer and then a length.
mod c {
    // SAFETY: as crates/capi declares it: corpus, work, out.
    unsafe extern "C" {
        pub(super) fn class_verify(
            corpus: *const u8,
            corpus_len: usize,
            work: *mut u8,
            work_len: usize,
            out: *mut u8,
            out_len: usize,
        ) -> u64;
    }
}

/// Writes the four counts of the script block and a flag for each package to the front of `out` and gives their length, 25
/// and one for each package, or gives the number of a refusal and leaves `out` as it was. `work` may have any length and
/// hold anything, and does afterwards; the answer is the same whatever it is.
pub fn class_verify(corpus: &[u8], work: &mut [u8], out: &mut [u8]) -> u64 {
    let (corpus_len, work_len, out_len) = (corpus.len(), work.len(), out.len());
    let (corpus, work, out) = (corpus.as_ptr(), work.as_mut_ptr(), out.as_mut_ptr());
    // SAFETY: pointers and lengths are those of live slices. None of them overlap, since two are borrowed for writing; the
    // call writes to those two alone, within their lengths, and keeps none.
    unsafe { c::class_verify(corpus, corpus_len, work, work_len, out, out_len) }
}
