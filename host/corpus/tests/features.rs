//! Every feature of document 01 occurs in what the generators make.
use corpus::census::{Census, census};
use corpus::generate::{LARGE, dense, generate, ladder, spelt};
use corpus::name::pairs;

fn joined(mut all: impl Iterator<Item = Census>) -> Census {
    let mut first = all.next().expect("a corpus");
    all.for_each(|next| first.join(&next));
    first
}

#[test]
fn all_in_a_large_corpus() {
    for seed in 1..4 {
        let counted = census(&generate(seed, 3 * LARGE));
        println!("{counted}");
        assert_eq!(counted.missing(), Vec::<String>::new());
    }
}

/// All but each length of paths and chains, for which there are ladders.
#[test]
fn all_in_small_corpora() {
    let mut counted = joined((0..2000).map(|seed| census(&dense(seed))));
    counted.join(&census(&ladder::paths().bytes()));
    counted.join(&census(&ladder::chains().bytes()));
    (0..200).for_each(|seed| counted.join(&census(&spelt(seed).bytes())));
    println!("{counted}");
    assert_eq!(counted.missing(), Vec::<String>::new());
}

/// Every character that lowering changes is in the name of a package, and each row finds its class by a spelling of it.
#[test]
fn the_whole_of_lowering() {
    let counted = census(&ladder::lowered(1).bytes());
    let count = pairs().count() as u64;
    assert_eq!(count, 1_487);
    assert_eq!(counted.candidates, 2 * count);
    assert_eq!(counted.features["import of a class"], 2 * count);
}

/// Joining forgets none of the counts.
#[test]
fn joined_counts_are_sums() {
    let parts = [1, 2].map(|seed| census(&generate(seed, 20_000)));
    let all = joined(
        [1, 2]
            .map(|seed| census(&generate(seed, 20_000)))
            .into_iter(),
    );
    for count in [
        |c: &Census| c.objects,
        |c: &Census| c.classes,
        |c: &Census| c.candidates,
        |c: &Census| c.work(),
        |c: &Census| c.features.values().sum(),
        |c: &Census| c.paths.iter().sum(),
        |c: &Census| c.chains.iter().sum(),
    ] {
        let [one, two] = [0, 1].map(|i| count(&parts[i]));
        assert!(one > 0 && two > 0);
        assert_eq!(count(&all), one + two);
    }
}

#[test]
fn the_same_from_the_same_seed() {
    assert_eq!(generate(5, 50_000), generate(5, 50_000));
    assert_ne!(generate(5, 50_000), generate(6, 50_000));
    assert_eq!(dense(5), dense(5));
}
