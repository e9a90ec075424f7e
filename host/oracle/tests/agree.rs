//! Oracle against model, on generated and damaged corpora, with a count of what was answered. Whatever is never
//! answered fails the test.
mod both;

use both::both;
use corpus::census::census;
use corpus::damage::{cuts, damage_block, faults, sound};
use corpus::draft::Draft;
use corpus::generate::{LARGE, Random, dense, dense_described, generate, ladder, spelt};
use corpus::tally::Tally;

const ROOM: u64 = 1 << 40;

/// What was asked and answered so far.
#[derive(Default)]
struct Asked {
    corpora: u64,
    tally: Tally,
}

impl Asked {
    /// Asks both about another corpus and gives the report.
    fn ask(&mut self, corpus: &[u8], work: u64, buffer: u64) -> Option<Vec<u8>> {
        self.corpora += 1;
        self.again(corpus, work, buffer)
    }

    /// Asks about the same corpus with other buffers.
    fn again(&mut self, corpus: &[u8], work: u64, buffer: u64) -> Option<Vec<u8>> {
        let answer = both(corpus, work, buffer);
        self.tally
            .add(answer.as_deref().map_err(|refusal| *refusal));
        answer.ok()
    }

    /// Asks with room, and if accepted with buffers that just fit, or are a byte short, or empty.
    fn ask_closely(&mut self, corpus: &[u8]) {
        let Some(report) = self.ask(corpus, ROOM, ROOM) else {
            return;
        };
        let (work, length) = (census(corpus).work(), report.len() as u64);
        assert!(self.again(corpus, work, length).is_some(), "both just fit");
        assert!(
            self.again(corpus, work, length - 1).is_none(),
            "short report"
        );
        self.again(corpus, 0, 0);
        if work > 0 {
            assert!(self.again(corpus, work - 1, length).is_none(), "short work");
            self.again(corpus, work - 1, length - 1);
        }
    }
}

fn generated(asked: &mut Asked) {
    let small = (0..12_000).map(dense);
    let spelt = (0..2_000).map(|seed| spelt(seed).bytes());
    let medium = (0..40).map(|seed| generate(seed, 50_000));
    let large = (0..2).map(|seed| generate(seed, 3 * LARGE));
    let lines = ladder::all(1).map(|line| line.bytes());
    let all = small.chain(spelt).chain(medium).chain(large).chain(lines);
    all.for_each(|corpus| asked.ask_closely(&corpus));
}

/// Damage in larger corpora, with buffers that are sometimes too short, and in small ones.
fn damaged(asked: &mut Asked) {
    let mut random = Random(5);
    let bases: Vec<Vec<u8>> = (0..20)
        .map(|seed| generate(seed, 5_000 + 300 * seed as usize))
        .collect();
    for i in 0..20_000 {
        let corpus = damage_block(&mut random, &bases[i % bases.len()]);
        let length = |r: &mut Random, most| if r.chance(90) { ROOM } else { r.below(most) };
        let (work, buffer) = (length(&mut random, 12_000), length(&mut random, 6_000));
        asked.ask(&corpus, work, buffer);
        let small = match i % 4 {
            0 => spelt(i as u64).bytes(),
            _ => dense(i as u64),
        };
        asked.ask(&damage_block(&mut random, &small), ROOM, ROOM);
    }
}

fn faulty(asked: &mut Asked, base: &Draft) {
    for fault in faults(base) {
        let mut draft = base.clone();
        fault.apply(&mut draft);
        asked.ask(&draft.bytes(), draft.work, draft.report);
    }
}

/// Every prefix of a corpus, and every length of each block.
fn cut_short(asked: &mut Asked, draft: &Draft) {
    let corpus = draft.bytes();
    let prefixes = (0..corpus.len()).map(|n| corpus[..n].to_vec());
    for cut in prefixes.chain(cuts(draft)) {
        asked.ask(&cut, ROOM, ROOM);
    }
}

#[test]
fn oracle_and_model_agree() {
    let mut all = Asked::default();
    generated(&mut all);
    damaged(&mut all);
    (10..20).for_each(|seed| faulty(&mut all, &sound(seed)));
    (0..6).for_each(|seed| cut_short(&mut all, &dense_described(seed).draft()));
    cut_short(&mut all, &sound(0));
    println!("{} corpora: {}", all.corpora, all.tally);
    assert!(all.corpora >= 50_000);
    assert_eq!(all.tally.missing(), Vec::<String>::new());
}
