//! Demand 3 by running a call: reordering and rewriting change nothing of what an output says of a package, and a section
//! of a report is that.
use corpus::census::census;
use corpus::generate::{LARGE, Random, dense, generate, ladder, spelt};
use corpus::passed::KINDS;
use corpus::rearrange::rearrange;

use crate::asked::Asked;
use crate::judged::{Judged, Reports};

/// How many corpora were held against their rearrangements, those whose order changed, and the bytes changed of each kind.
#[derive(Default)]
pub(crate) struct Held {
    pub(crate) corpora: u64,
    pub(crate) reordered: u64,
    changed: [u64; KINDS.len()],
}

impl Held {
    /// Holds all of these that are accepted.
    pub(crate) fn over<J: Judged>(seed: u64, corpora: impl Iterator<Item = Vec<u8>>) -> Held {
        let mut random = Random(seed);
        let mut asked = Asked::<J>::new(seed);
        let mut held = Held::default();
        corpora.for_each(|corpus| held.hold(&mut asked, &corpus, &mut random));
        held
    }

    /// Rearranges an accepted corpus and asks again, with buffers of the same lengths that hold something else.
    fn hold<J: Judged>(&mut self, asked: &mut Asked<J>, corpus: &[u8], random: &mut Random) {
        let work = census(corpus).work() as usize;
        let Ok(output) = J::both(corpus, work as u64, u64::MAX) else {
            return;
        };
        let old = asked.caller.ask(corpus, work, output.len());
        let old = old.expect("both buffers just fit");
        let other = rearrange(corpus, random);
        let new = asked.ask(&other.corpus, work, output.len());
        let new = new.expect("accepted as before");
        assert_eq!(new.len(), old.len(), "the number");
        let ((head, before), (new_head, after)) = (J::parts(&old), J::parts(&new));
        assert_eq!(new_head, head);
        assert_eq!(after.len(), other.order.len());
        for (section, from) in after.iter().zip(&other.order) {
            assert_eq!(*section, before[*from]);
        }
        self.corpora += 1;
        self.reordered += u64::from(!other.order.is_sorted());
        for (sum, n) in self.changed.iter_mut().zip(other.changed) {
            *sum += n;
        }
    }

    /// Tells how many bytes of each kind changed; there have to be some.
    pub(crate) fn all_changed(&self) {
        let (corpora, reordered) = (self.corpora, self.reordered);
        println!("{corpora} corpora rearranged, {reordered} of them reordered; bytes changed:");
        for (kind, n) in KINDS.iter().zip(self.changed) {
            println!("{kind}: {n}");
            assert!(n > 0, "{kind} never changed");
        }
    }
}

/// Names beyond ASCII, wide and of Latin-1, that are imported by other spellings.
#[test]
fn sections_with_accents_stay() {
    let small = (300_000..302_000).map(|seed| spelt(seed).bytes());
    let whole = ladder::lowered(1).bytes();
    let held = Held::over::<Reports>(9, small.chain([whole]));
    let (corpora, reordered) = (held.corpora, held.reordered);
    println!("{corpora} corpora with accents rearranged, {reordered} of them reordered");
    assert!(corpora == 2_001 && reordered > 1_000);
}

#[test]
fn sections_stay() {
    let small = (300_000..308_000).map(dense);
    let medium = (300..340).map(|seed| generate(seed, 20_000));
    let large = (300..302).map(|seed| generate(seed, LARGE));
    let held = Held::over::<Reports>(8, small.chain(medium).chain(large));
    held.all_changed();
    assert!(held.corpora >= 5_000 && held.reordered > 1_000);
}
