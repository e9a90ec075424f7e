//! How often each refusal, class kind and pair of known flags was answered.
use crate::refusals::Refusals;
use crate::rows::{rows, sections};
use answer::Refusal;
use std::fmt;

/// Class kind, class known, native known: what `resolve` can answer.
pub const CLASSES: [(u8, u8, u8); 10] = [
    (0, 1, 1),
    (1, 0, 0),
    (2, 1, 0),
    (2, 1, 1),
    (3, 0, 0),
    (4, 1, 0),
    (4, 1, 1),
    (5, 0, 0),
    (6, 0, 0),
    (7, 0, 0),
];

#[derive(Debug, Default)]
pub struct Tally {
    pub refusals: Refusals,
    /// rows for each of `CLASSES`
    pub classes: [u64; CLASSES.len()],
    /// rows of candidate kind 1 and 2, and those numbered
    pub candidates: [u64; 3],
}

impl Tally {
    /// Counts a refusal, or a report with its rows.
    pub fn add(&mut self, answer: Result<&[u8], Refusal>) {
        self.refusals.add(&answer);
        let sections = answer.map(sections).unwrap_or_default();
        let rows = sections.iter().flat_map(|section| rows(section));
        rows.for_each(|row| self.add_row(row));
    }

    fn add_row(&mut self, row: &[u8]) {
        let class = (row[3], row[4], row[5]);
        let slot = CLASSES.iter().position(|c| *c == class);
        self.classes[slot.unwrap_or_else(|| panic!("class kind and flags {class:?}"))] += 1;
        self.candidates[usize::from(row[1]) - 1] += 1;
        self.candidates[2] += u64::from(row[2]);
    }

    /// What was never answered.
    pub fn missing(&self) -> Vec<String> {
        let classes = CLASSES.iter().zip(&self.classes);
        let candidates = ["kind 1", "kind 2", "numbered"].iter().zip(self.candidates);
        let mut out = self.refusals.missing(&[]);
        out.extend(
            classes
                .filter(|(_, n)| **n == 0)
                .map(|(c, _)| format!("class kind and flags {c:?}")),
        );
        out.extend(
            candidates
                .filter(|(_, n)| *n == 0)
                .map(|(c, _)| format!("candidate {c}")),
        );
        out
    }
}

impl fmt::Display for Tally {
    fn fmt(&self, f: &mut fmt::Formatter) -> fmt::Result {
        write!(f, "{}", self.refusals)?;
        for ((kind, class, native), n) in CLASSES.iter().zip(&self.classes) {
            writeln!(f, "class kind {kind}, known {class} {native}: {n} rows")?;
        }
        let [first, second, numbered] = self.candidates;
        write!(
            f,
            "candidates: {first} of kind 1 ({numbered} numbered), {second} of kind 2"
        )
    }
}
