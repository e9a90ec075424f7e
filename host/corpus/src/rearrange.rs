//! Demand 3's changes to an accepted corpus: whole packages in another order, and any values for what is passed over.
use crate::decode::{Corpus, decode};
use crate::generate::Random;
use crate::passed::{KINDS, places};

#[derive(Debug)]
pub struct Rearranged {
    pub corpus: Vec<u8>,
    /// new package i was package `order[i]`
    pub order: Vec<usize>,
    /// bytes of each kind that have another value than before
    pub changed: [u64; KINDS.len()],
}

pub fn rearrange(corpus: &[u8], random: &mut Random) -> Rearranged {
    let old = decode(corpus);
    let (rewritten, changed) = rewritten(corpus, &old, random);
    let order = random.order(old.packages.len());
    // What stands before the packages, their count included, stays.
    let length = match old.packages.len() {
        0 => corpus.len(),
        _ => old.whole(0).start,
    };
    let mut out = rewritten[..length].to_vec();
    for i in &order {
        out.extend_from_slice(&rewritten[old.whole(*i)]);
    }
    Rearranged {
        corpus: out,
        order,
        changed,
    }
}

/// The corpus with random values in every passed-over place, and how many bytes of each kind changed.
fn rewritten(corpus: &[u8], old: &Corpus, random: &mut Random) -> (Vec<u8>, [u64; KINDS.len()]) {
    let mut out = corpus.to_vec();
    let mut changed = [0; KINDS.len()];
    for place in places(old) {
        changed[place.kind] += rewrite(&mut out[place.bytes], place.mask, random);
    }
    (out, changed)
}

/// Gives the masked bits random values and answers how many bytes changed.
fn rewrite(bytes: &mut [u8], mask: u8, random: &mut Random) -> u64 {
    let mut changed = 0;
    for byte in bytes {
        let was = *byte;
        *byte = was & !mask | random.next() as u8 & mask;
        changed += u64::from(*byte != was);
    }
    changed
}
