//! The committed list is what the recorder writes, and holds every kind of answer.
use corpus::list::{Case, read, sum};
use corpus::rows::sections;
use corpus::tally::Tally;
use std::collections::BTreeSet;

fn committed(name: &str) -> Vec<u8> {
    let data = concat!(env!("CARGO_MANIFEST_DIR"), "/../../crates/replay/data/");
    std::fs::read(format!("{data}{name}")).expect("the committed list")
}

fn cases() -> Vec<Case> {
    read(&committed("list.bin")).expect("a whole list")
}

#[test]
fn recorded_anew_the_same() {
    let (old, new) = (committed("list.bin"), record::list());
    let differs = old.iter().zip(&new).position(|(a, b)| a != b);
    assert_eq!(differs, None, "the first byte that differs");
    assert_eq!(old.len(), new.len(), "bytes");
    assert_eq!(
        committed("list.sum"),
        sum(&new).as_bytes(),
        "the list's sum"
    );
}

#[test]
fn every_answer_is_there() {
    let cases = cases();
    let mut tally = Tally::default();
    for case in &cases {
        tally.add(case.outcome());
    }
    println!("{tally}");
    assert_eq!(tally.missing(), Vec::<String>::new());
    assert!((300..=400).contains(&cases.len()), "{} cases", cases.len());
    assert!(committed("list.bin").len() <= 1_000_000);
    let refused = cases.iter().filter_map(|case| case.outcome().err());
    let blocks: BTreeSet<u32> = refused.map(|(_, block)| block).collect();
    assert!((0..4).all(|block| blocks.contains(&block)), "{blocks:?}");
}

/// Neighbours that are each other's rearrangement: other corpora, the same sections.
#[test]
fn rearranged_corpora_are_there() {
    let sorted = |report| {
        let mut all = sections(report);
        all.sort();
        all
    };
    let cases = cases();
    let pairs = cases.windows(2).filter(|two| {
        let (Ok(one), Ok(other)) = (two[0].outcome(), two[1].outcome()) else {
            return false;
        };
        two[0].corpus != two[1].corpus
            && two[0].corpus.len() == two[1].corpus.len()
            && sorted(one) == sorted(other)
    });
    assert!(pairs.count() >= 15);
}
