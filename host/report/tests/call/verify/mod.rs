//! The check of a build's own hashes, by call, oracle and model.
mod agree;
mod steps;

use std::collections::BTreeMap;
use std::fmt::Write;

use answer::{Answer, Refusal};
use corpus::decode::be;
use corpus::refusals::Refusals;
use model::Limits;

use crate::both::agreed;
use crate::judged::Judged;

/// What stands before the flags.
const HEAD: usize = 25;

/// The counts, in their order in an output.
const COUNTS: [&str; 4] = ["objects", "paths resolved", "matches", "mismatches"];

/// Every count has to have had each value up to this.
const EACH_UP_TO: u64 = 60;

/// The call, with how often each refusal, each value of a count and each flag were answered.
#[derive(Default)]
struct Verifies {
    refusals: Refusals,
    counts: [BTreeMap<u64, u64>; COUNTS.len()],
    flags: [u64; 2],
}

/// The four counts of an output.
fn counts(output: &[u8]) -> [u64; COUNTS.len()] {
    [5, 9, 13, 17].map(|at| be(output, at, 4))
}

impl Judged for Verifies {
    const ASKS_WORK: bool = false;

    fn call(_: Limits, corpus: &[u8], work: &mut [u8], out: &mut [u8]) -> u64 {
        report::class_verify(corpus, work, out)
    }

    fn both(corpus: &[u8], work: u64, room: u64) -> Answer {
        let model = model::class_verify(corpus, room);
        let oracle = oracle::verify::class_verify(corpus, room);
        agreed(corpus, [work, room], model, &oracle)
    }

    fn parts(output: &[u8]) -> (&[u8], Vec<&[u8]>) {
        let (head, flags) = output.split_at(HEAD);
        (head, flags.chunks(1).collect())
    }

    fn add(&mut self, answer: Result<&[u8], Refusal>) {
        self.refusals.add(&answer);
        let Ok(output) = answer else { return };
        let numbers = counts(output);
        assert_eq!(numbers[1], numbers[2] + numbers[3], "resolved paths");
        for (seen, number) in self.counts.iter_mut().zip(numbers) {
            *seen.entry(number).or_default() += 1;
        }
        for flag in &output[HEAD..] {
            self.flags[usize::from(*flag)] += 1;
        }
    }

    fn missing(&self) -> Vec<String> {
        let mut out = self.refusals.missing(&[25]);
        for (what, seen) in COUNTS.iter().zip(&self.counts) {
            let never = (0..=EACH_UP_TO).filter(|number| !seen.contains_key(number));
            out.extend(never.map(|number| format!("{number} {what}")));
        }
        let never = (0..2).filter(|flag| self.flags[*flag] == 0);
        out.extend(never.map(|flag| format!("flag {flag}")));
        out
    }

    fn told(&self) -> String {
        let mut out = self.refusals.to_string();
        for (what, seen) in COUNTS.iter().zip(&self.counts) {
            let most = seen.keys().next_back().unwrap_or(&0);
            let none = seen.get(&0).unwrap_or(&0);
            let values = seen.len();
            let _ = writeln!(
                out,
                "{what}: {values} values, 0 in {none} answers, at most {most}"
            );
        }
        let [wrong, right] = self.flags;
        out + &format!("flags: {right} right, {wrong} wrong")
    }
}
