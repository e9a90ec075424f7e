//! The recorded list: corpora, lengths of buffers and the oracle's answers, the same on every run.
mod choice;
pub mod command;
pub mod files;

use corpus::list::{Case, write};
use oracle::report::class_report;

/// A corpus and the lengths of the work and report buffers.
pub struct Question {
    pub corpus: Vec<u8>,
    pub work: u64,
    pub buffer: u64,
}

/// What a replaying program has to allocate at most.
const MOST_WORK: u64 = 256 * 1024;
const MOST_REPORT: u64 = 64 * 1024;

/// The list's bytes.
pub fn list() -> Vec<u8> {
    let cases: Vec<Case> = choice::questions().into_iter().map(answered).collect();
    write(&cases)
}

fn answered(q: Question) -> Case {
    assert!(q.work <= MOST_WORK && q.buffer <= MOST_REPORT);
    let answer = class_report(&q.corpus, q.work, q.buffer);
    Case {
        corpus: q.corpus,
        work: q.work,
        buffer: q.buffer,
        answer: answer::number(&answer),
        report: answer.unwrap_or_default(),
    }
}
