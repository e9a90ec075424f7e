//! The call with lent buffers, all around which is watched.
use answer::Answer;
use corpus::generate::Random;
use model::{BASE, Limits};

use crate::buffer::Buffer;

/// What the work buffer holds when it is lent.
const CONTENTS: [&str; 4] = ["zeros", "ones", "noise", "what a call left"];

/// Limits, a corpus, a work buffer and an output buffer give a number.
pub(crate) type Call = fn(Limits, &[u8], &mut [u8], &mut [u8]) -> u64;

/// Calls with buffers that start anywhere and hold anything.
pub(crate) struct Caller {
    of: Call,
    random: Random,
    corpus: Buffer,
    work: Buffer,
    report: Buffer,
    pub(crate) calls: u64,
    /// how often the work buffer held each of `CONTENTS`
    contents: [u64; CONTENTS.len()],
}

impl Caller {
    pub(crate) fn new(of: Call, seed: u64) -> Caller {
        Caller {
            of,
            random: Random(seed),
            corpus: Buffer::default(),
            work: Buffer::default(),
            report: Buffer::default(),
            calls: 0,
            contents: [0; CONTENTS.len()],
        }
    }

    /// Asks about a corpus with document 01's limits and buffers of these lengths.
    pub(crate) fn ask(&mut self, corpus: &[u8], work: usize, report: usize) -> Answer {
        self.ask_within(BASE, corpus, work, report)
    }

    /// Asks about a corpus with these limits and buffers of these lengths, twice in a row with the same buffers.
    pub(crate) fn ask_within(
        &mut self,
        limits: Limits,
        corpus: &[u8],
        work: usize,
        report: usize,
    ) -> Answer {
        self.corpus.lay_input(corpus, &mut self.random);
        self.work.lay(work, &mut self.random);
        self.fill_work();
        self.report.lay_output(report, &mut self.random);
        let number = self.call(limits, corpus);
        let answer = self.report.answer(number);
        // The work buffer is now as the call left it, and the report's holds the report.
        let before = self.report.lent().to_vec();
        assert_eq!(
            self.call(limits, corpus),
            number,
            "the number the second time"
        );
        assert!(before == self.report.lent(), "the report the second time");
        answer
    }

    fn fill_work(&mut self) {
        let contents = self.random.below(CONTENTS.len() as u64) as usize;
        self.contents[contents] += 1;
        let work = self.work.lent();
        match contents {
            0 => work.fill(0),
            1 => work.fill(0xff),
            2 => work.fill_with(|| self.random.next() as u8),
            _ => {}
        }
    }

    /// One call with the buffers as they are: it writes to none but its own, and not to the corpus.
    fn call(&mut self, limits: Limits, corpus: &[u8]) -> u64 {
        self.calls += 1;
        let (work, report) = (self.work.lent(), self.report.lent());
        let number = (self.of)(limits, self.corpus.lent(), work, report);
        let intact = [&self.corpus, &self.work, &self.report].map(Buffer::intact);
        assert_eq!(intact, [true; 3], "around corpus, work and report");
        assert!(self.corpus.lent() == corpus, "the corpus was written to");
        number
    }

    /// Contents of the work buffer and starts of any buffer that never were.
    pub(crate) fn missing(&self) -> Vec<String> {
        let contents = CONTENTS.iter().zip(self.contents);
        let never = contents.filter(|(_, n)| *n == 0);
        let mut out: Vec<String> = never.map(|(what, _)| format!("work of {what}")).collect();
        for buffer in [&self.corpus, &self.work, &self.report] {
            out.extend(buffer.missing());
        }
        out
    }
}
