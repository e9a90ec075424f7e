//! The calls that lend a corpus, a work buffer and an output buffer, each with its judges.
use answer::{Answer, Refusal};
use corpus::rows::sections;
use corpus::tally::Tally;
use model::Limits;

use crate::both::both;

/// One of the calls, and what is counted of its answers.
pub(crate) trait Judged: Default {
    /// Whether 25 is asked of it: is the work buffer long enough?
    const ASKS_WORK: bool;

    fn call(limits: Limits, corpus: &[u8], work: &mut [u8], out: &mut [u8]) -> u64;

    /// What oracle and model answer with buffers of these lengths; panics where they differ.
    fn both(corpus: &[u8], work: u64, room: u64) -> Answer;

    /// What an output says of the whole corpus, and of each package.
    fn parts(output: &[u8]) -> (&[u8], Vec<&[u8]>);

    /// Counts an answer.
    fn add(&mut self, answer: Result<&[u8], Refusal>);

    /// What never was answered.
    fn missing(&self) -> Vec<String>;

    /// What was answered, for people.
    fn told(&self) -> String;
}

/// The report call.
#[derive(Default)]
pub(crate) struct Reports(Tally);

impl Judged for Reports {
    const ASKS_WORK: bool = true;

    fn call(limits: Limits, corpus: &[u8], work: &mut [u8], out: &mut [u8]) -> u64 {
        report::class_report(corpus, limits.lookups, limits.objects, work, out)
    }

    fn both(corpus: &[u8], work: u64, room: u64) -> Answer {
        both(corpus, work, room)
    }

    fn parts(output: &[u8]) -> (&[u8], Vec<&[u8]>) {
        (&output[..9], sections(output))
    }

    fn add(&mut self, answer: Result<&[u8], Refusal>) {
        self.0.add(answer);
    }

    fn missing(&self) -> Vec<String> {
        self.0.missing()
    }

    fn told(&self) -> String {
        self.0.to_string()
    }
}
