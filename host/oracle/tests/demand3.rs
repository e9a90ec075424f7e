//! Demand 3 on oracle and model: reordering and rewriting change no section of a report.
mod both;

use both::both;
use corpus::census::census;
use corpus::generate::{LARGE, Random, dense, generate, ladder, spelt};
use corpus::passed::KINDS;
use corpus::rearrange::rearrange;
use corpus::rows::sections;

/// Rearranges an accepted corpus and asks again, with buffers of the same lengths.
fn hold(corpus: &[u8], random: &mut Random, changed: &mut [u64; KINDS.len()]) -> bool {
    let work = census(corpus).work();
    let Ok(old) = both(corpus, work, 1 << 40) else {
        return false;
    };
    let other = rearrange(corpus, random);
    let new = both(&other.corpus, work, old.len() as u64).expect("accepted as before");
    assert_eq!(new.len(), old.len());
    assert_eq!(new[..9], old[..9]);
    let (before, after) = (sections(&old), sections(&new));
    for (section, from) in after.iter().zip(&other.order) {
        assert_eq!(*section, before[*from]);
    }
    for (sum, n) in changed.iter_mut().zip(other.changed) {
        *sum += n;
    }
    true
}

/// Names beyond ASCII, wide and of Latin-1, that are imported by other spellings.
#[test]
fn sections_with_accents_stay() {
    let mut random = Random(9);
    let mut changed = [0; KINDS.len()];
    let small = (0..2_000).map(|seed| spelt(seed).bytes());
    let whole = ladder::lowered(1).bytes();
    for corpus in small.chain([whole]) {
        assert!(hold(&corpus, &mut random, &mut changed), "accepted");
    }
    let other_names = changed[1] > 0 && changed[2] > 0;
    assert!(other_names, "{} and {} changed", KINDS[1], KINDS[2]);
}

#[test]
fn sections_stay() {
    let mut random = Random(3);
    let mut changed = [0; KINDS.len()];
    let mut held = 0;
    let small = (0..4_000).map(dense);
    let medium = (0..40).map(|seed| generate(seed, 20_000));
    let large = (0..2).map(|seed| generate(seed, LARGE));
    for corpus in small.chain(medium).chain(large) {
        held += u64::from(hold(&corpus, &mut random, &mut changed));
    }
    println!("{held} corpora rearranged; bytes changed:");
    for (kind, n) in KINDS.iter().zip(changed) {
        println!("{kind}: {n}");
        assert!(n > 0, "{kind} never changed");
    }
    assert!(held > 2_000);
}

/// Rewriting alone keeps the answer of a refused corpus too, as long as its blocks can be taken apart.
#[test]
fn a_key_twice_stays() {
    let mut random = Random(4);
    let mut seen = 0;
    for corpus in (0..2_000).map(dense) {
        if both(&corpus, 1 << 40, 1 << 40).err().map(|(n, _)| n) != Some(24) {
            continue;
        }
        let other = rearrange(&corpus, &mut random);
        let (refusal, _) = both(&other.corpus, 1 << 40, 1 << 40).expect_err("a key twice");
        assert_eq!(refusal, 24);
        seen += 1;
    }
    assert!(seen > 0);
}
