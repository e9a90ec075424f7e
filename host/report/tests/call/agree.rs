//! A call, oracle and model on generated, damaged and rearranged corpora, with a count of what was answered. Whatever is
//! never answered fails the test.
use std::ops::Range;

use corpus::damage::{Fault, cuts, damage_block, faults, sound};
use corpus::draft::Draft;
use corpus::generate::{LARGE, Random, dense, dense_described, generate, ladder, spelt};
use corpus::rearrange::rearrange;

use crate::asked::Asked;
use crate::judged::{Judged, Reports};

/// Small corpora, and of the accepted ones every other once more, rearranged.
pub(crate) fn small<J: Judged>(asked: &mut Asked<J>, corpora: impl Iterator<Item = Vec<u8>>) {
    let mut random = Random(6);
    for (i, corpus) in corpora.enumerate() {
        if asked.ask_closely(&corpus) && i % 2 == 0 {
            asked.ask_closely(&rearrange(&corpus, &mut random).corpus);
        }
    }
}

/// Packages that import one another by names beyond ASCII, as they are and rearranged.
pub(crate) fn accented<J: Judged>(asked: &mut Asked<J>, seeds: Range<u64>) {
    let mut random = Random(10);
    for seed in seeds {
        let corpus = spelt(seed).bytes();
        let other = rearrange(&corpus, &mut random).corpus;
        assert!(asked.ask_closely(&corpus), "accepted");
        assert!(asked.ask_closely(&other), "accepted as before");
    }
}

pub(crate) fn larger<J: Judged>(asked: &mut Asked<J>, seeds: Range<u64>) {
    let medium = seeds.map(|seed| generate(seed, 50_000));
    let large = (100..102).map(|seed| generate(seed, LARGE));
    let lines = ladder::all(1).map(|line| line.bytes());
    for corpus in medium.chain(large).chain(lines) {
        assert!(asked.ask_closely(&corpus), "accepted");
    }
}

/// Damage in larger corpora and in small ones, so many of each.
pub(crate) fn damaged<J: Judged>(asked: &mut Asked<J>, many: usize, small: fn(u64) -> Vec<u8>) {
    let mut random = Random(7);
    let bases: Vec<Vec<u8>> = (200..220)
        .map(|seed| generate(seed, 300 * seed as usize - 55_000))
        .collect();
    for i in 0..many {
        asked.ask_closely(&damage_block(&mut random, &bases[i % bases.len()]));
        let small = small(200_000 + i as u64);
        asked.ask_closely(&damage_block(&mut random, &small));
    }
}

pub(crate) fn faulty<J: Judged>(asked: &mut Asked<J>, base: &Draft) {
    let asks = |fault: &Fault| J::ASKS_WORK || fault.refusal != 25;
    for fault in faults(base).into_iter().filter(asks) {
        let mut draft = base.clone();
        fault.apply(&mut draft);
        asked.corpora += 1;
        let answer = asked.ask(&draft.bytes(), draft.work as usize, draft.report as usize);
        assert_eq!(answer, Err((fault.refusal, fault.block)), "{}", fault.name);
    }
}

/// Every prefix of a corpus, and every length of each block.
pub(crate) fn cut_short<J: Judged>(asked: &mut Asked<J>, draft: &Draft) {
    let corpus = draft.bytes();
    let prefixes = (0..corpus.len()).map(|n| corpus[..n].to_vec());
    for cut in prefixes.chain(cuts(draft)) {
        asked.ask_closely(&cut);
    }
}

#[test]
fn call_oracle_and_model_agree() {
    let mut all = Asked::<Reports>::new(1);
    small(&mut all, (100_000..115_000).map(dense));
    accented(&mut all, 100_000..102_000);
    larger(&mut all, 100..140);
    damaged(&mut all, 30_000, |seed| match seed % 4 {
        0 => spelt(seed).bytes(),
        _ => dense(seed),
    });
    (20..30).for_each(|seed| faulty(&mut all, &sound(seed)));
    (20..28).for_each(|seed| cut_short(&mut all, &dense_described(seed).draft()));
    cut_short(&mut all, &sound(1));
    all.all_of(100_000);
}
