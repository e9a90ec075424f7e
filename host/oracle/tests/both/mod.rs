//! Oracle and model asked the same.
use answer::Answer;

/// What both answer; panics where they differ.
pub(crate) fn both(corpus: &[u8], work: u64, buffer: u64) -> Answer {
    let model = model::class_report(corpus, work, buffer);
    let oracle = oracle::report::class_report(corpus, work, buffer);
    agreed(corpus, [work, buffer], model, &oracle)
}

/// The answer of both to a corpus with buffers of these lengths.
pub(crate) fn agreed(corpus: &[u8], lengths: [u64; 2], model: Answer, oracle: &Answer) -> Answer {
    assert!(
        *oracle == model,
        "oracle: {}; model: {}; work and output buffer {lengths:?}, corpus {corpus:02x?}",
        told(oracle),
        told(&model),
    );
    model
}

/// An answer as a failing test prints it.
pub(crate) fn told(answer: &Answer) -> String {
    match answer {
        Ok(report) => format!("a report of {} bytes", report.len()),
        Err((refusal, block)) => format!("refusal {refusal}, block {block}"),
    }
}
