//! How often each refusal was answered.
use answer::Refusal;
use std::fmt;

/// The last refusal.
const LAST: usize = 26;

/// The refusal that is retired: nobody answers it any more.
const RETIRED: usize = 23;

/// At 0 the accepted.
#[derive(Debug, Default)]
pub struct Refusals([u64; LAST + 1]);

impl Refusals {
    /// Counts an answer, whatever was accepted.
    pub fn add<T>(&mut self, answer: &Result<T, Refusal>) {
        let refusal = answer.as_ref().err().map_or(0, |(refusal, _)| *refusal);
        assert_ne!(usize::from(refusal), RETIRED, "a refusal that is retired");
        self.0[usize::from(refusal)] += 1;
    }

    /// How often a refusal was answered, or with 0 how often none.
    pub fn of(&self, refusal: u8) -> u64 {
        self.0[usize::from(refusal)]
    }

    pub fn answers(&self) -> u64 {
        self.0.iter().sum()
    }

    fn each(&self) -> impl Iterator<Item = (usize, u64)> {
        let all = self.0.iter().copied().enumerate();
        all.filter(|(refusal, _)| *refusal != RETIRED)
    }

    /// Those that were never answered, and any of these that are not asked and were.
    pub fn missing(&self, not_asked: &[u8]) -> Vec<String> {
        let asked = |refusal: &usize| !not_asked.contains(&(*refusal as u8));
        let wrong = self
            .each()
            .filter(|(refusal, n)| asked(refusal) == (*n == 0));
        wrong
            .map(|(refusal, n)| format!("refusal {refusal}: {n}"))
            .collect()
    }
}

impl fmt::Display for Refusals {
    fn fmt(&self, f: &mut fmt::Formatter) -> fmt::Result {
        writeln!(f, "{} answers, {} accepted", self.answers(), self.of(0))?;
        for (refusal, n) in self.each().skip(1) {
            writeln!(f, "refusal {refusal}: {n}")?;
        }
        Ok(())
    }
}
