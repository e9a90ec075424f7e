//! What was asked of a call, oracle and model, and answered by all three.
use std::collections::BTreeMap;

use answer::Answer;
use corpus::census::census;
use corpus::generate::Random;

use crate::both::told;
use crate::judged::Judged;
use crate::lent::Caller;

/// Room for any report and any table, where only its length is asked.
const ROOM: u64 = 1 << 40;

/// Lengths of the work buffer, of a corpus that wants so many bytes; `part` is below 1,000.
fn works(sum: usize, part: usize) -> Vec<(&'static str, usize)> {
    let less = sum.checked_sub(1).map(|less| ("the sum less 1", less));
    let fixed = [
        ("0", 0),
        ("1", 1),
        ("63", 63),
        ("a part of the sum", sum * part / 1_000),
        ("the sum", sum),
        ("the sum plus 1", sum + 1),
        ("ample", 3 * sum + part),
    ];
    fixed.into_iter().chain(less).collect()
}

/// Lengths of the output buffer, of a corpus whose output has so many bytes.
fn rooms(length: usize) -> [(&'static str, usize); 4] {
    [
        ("0", 0),
        ("the length less 1", length - 1),
        ("the length", length),
        ("the length plus 1", length + 1),
    ]
}

/// Asks, compares and counts.
pub(crate) struct Asked<J> {
    pub(crate) caller: Caller,
    random: Random,
    pub(crate) corpora: u64,
    tally: J,
    /// how often each two lengths of the buffers were asked of an accepted corpus
    lengths: BTreeMap<(&'static str, &'static str), u64>,
}

impl<J: Judged> Asked<J> {
    pub(crate) fn new(seed: u64) -> Asked<J> {
        Asked {
            caller: Caller::new(J::call, seed),
            random: Random(seed),
            corpora: 0,
            tally: J::default(),
            lengths: BTreeMap::new(),
        }
    }

    /// The call's answer, which has to be the one that is expected.
    fn same(&mut self, corpus: &[u8], work: usize, room: usize, expected: &Answer) {
        let given = self.caller.ask(corpus, work, room);
        assert!(
            given == *expected,
            "call {}, oracle and model {}; work {work}, room {room}, corpus {}",
            told(&given),
            told(expected),
            shown(corpus)
        );
        self.tally.add(given.as_deref().map_err(|refusal| *refusal));
    }

    /// All three about a corpus with these buffers.
    pub(crate) fn ask(&mut self, corpus: &[u8], work: usize, room: usize) -> Answer {
        let expected = J::both(corpus, work as u64, room as u64);
        self.same(corpus, work, room, &expected);
        expected
    }

    /// All three about another corpus, with buffers of many lengths; whether it is accepted where there is room.
    pub(crate) fn ask_closely(&mut self, corpus: &[u8]) -> bool {
        self.corpora += 1;
        let answer = J::both(corpus, ROOM, ROOM);
        match &answer {
            Ok(output) => self.accepted(corpus, output),
            Err(_) => self.refused(corpus, &answer),
        }
        answer.is_ok()
    }

    /// A refusal up to 24 is the same whatever the buffers.
    fn refused(&mut self, corpus: &[u8], answer: &Answer) {
        let (most, any) = (2 * corpus.len(), self.random.below(200) as usize);
        let some = self.random.below(1 + most as u64) as usize;
        for work in [most + 64, some, 0, 63] {
            self.same(corpus, work, any, answer);
        }
    }

    /// An accepted corpus with every two lengths that are near a limit; oracle and model are asked about one of them.
    fn accepted(&mut self, corpus: &[u8], output: &[u8]) {
        let sum = census(corpus).work() as usize;
        let works = works(sum, self.random.below(1_000) as usize);
        let judged = self.random.below(4 * works.len() as u64);
        let both_of = |work| rooms(output.len()).map(|room| (work, room));
        let lengths = works.into_iter().flat_map(both_of);
        for (i, ((work_name, work), (room_name, room))) in (0..).zip(lengths) {
            let expected = if J::ASKS_WORK && work < sum {
                Err((25, 0))
            } else if room < output.len() {
                Err((26, 0))
            } else {
                Ok(output.to_vec())
            };
            self.same(corpus, work, room, &expected);
            *self.lengths.entry((work_name, room_name)).or_default() += 1;
            if i == judged {
                assert!(J::both(corpus, work as u64, room as u64) == expected);
            }
        }
    }

    /// What never was asked or answered.
    fn missing(&self) -> Vec<String> {
        let mut out = self.tally.missing();
        out.extend(self.caller.missing());
        for (work, _) in works(64, 0) {
            for (room, _) in rooms(9) {
                if !self.lengths.contains_key(&(work, room)) {
                    out.push(format!("work {work}, room {room}"));
                }
            }
        }
        out
    }

    /// Tells what was asked and answered: at least so many corpora, and all that there is to ask and to answer.
    pub(crate) fn all_of(&self, least: u64) {
        let (corpora, calls) = (self.corpora, self.caller.calls);
        println!("{corpora} corpora, {calls} calls: {}", self.tally.told());
        assert_eq!(self.missing(), Vec::<String>::new());
        assert!(corpora >= least);
    }
}

/// A corpus as a failing test prints it.
fn shown(corpus: &[u8]) -> String {
    if corpus.len() > 10_000 {
        return format!("of {} bytes", corpus.len());
    }
    format!("{corpus:02x?}")
}
