//! The call with limits of its own, against the model: every pair of limits, the numbers that are refused, and what is known
//! within one pair and another.
use answer::Answer;
use corpus::generate::{LARGE, Random, dense, generate, ladder, spelt};
use corpus::rearrange::rearrange;
use corpus::rows::{rows, sections, texts};
use model::{Limits, class_report_within};

use crate::both::told;
use crate::judged::{Judged, Reports};
use crate::lent::Caller;

const LOOKUPS: u32 = 64;
const OBJECTS: u32 = 65;

/// Asks, compares and counts.
struct Within {
    caller: Caller,
    random: Random,
}

impl Within {
    fn new(seed: u64) -> Within {
        Within {
            caller: Caller::new(Reports::call, seed),
            random: Random(seed),
        }
    }

    /// Call and model about a corpus, with buffers that are long enough.
    fn ask(&mut self, limits: Limits, corpus: &[u8]) -> Answer {
        self.lent(limits, corpus, 2 * corpus.len())
    }

    /// The same with a work buffer of this length; the report's buffer just holds the report, if there is one.
    fn lent(&mut self, limits: Limits, corpus: &[u8], work: usize) -> Answer {
        let expected = class_report_within(limits, corpus, work as u64, u64::MAX);
        let room = expected.as_ref().map_or(9, Vec::len);
        let given = self.caller.ask_within(limits, corpus, work, room);
        assert!(
            given == expected,
            "{limits:?}: call {}, model {}; work {work}, corpus of {} bytes",
            told(&given),
            told(&expected),
            corpus.len()
        );
        expected
    }

    /// The same with a work buffer that is often too short, and once more with a byte less for the report.
    fn ask_closely(&mut self, limits: Limits, corpus: &[u8]) {
        let most = 2 * corpus.len();
        let work = if self.random.chance(30) {
            self.random.below(1 + most as u64) as usize
        } else {
            most
        };
        if let Ok(report) = self.lent(limits, corpus, work)
            && self.random.chance(10)
        {
            let room = report.len() - 1;
            let given = self.caller.ask_within(limits, corpus, work, room);
            assert_eq!(given, Err((26, 0)));
        }
    }

    /// Limits of the range, often small ones.
    fn limits(&mut self) -> Limits {
        let mut up_to = |most: u32| {
            let most = u64::from(most);
            1 + self.random.below(most).min(self.random.below(2 * most)) as u32
        };
        Limits {
            lookups: up_to(LOOKUPS),
            objects: up_to(OBJECTS),
        }
    }
}

fn every_pair() -> impl Iterator<Item = Limits> {
    (1..=LOOKUPS).flat_map(|lookups| (1..=OBJECTS).map(move |objects| Limits { lookups, objects }))
}

#[test]
fn every_pair_on_small_corpora() {
    let mut within = Within::new(11);
    let ladders = [
        ladder::paths(),
        ladder::chains(),
        ladder::ring(3),
        ladder::told(),
    ];
    let small = ladders.map(|ladder| ladder.bytes()).into_iter();
    for corpus in small.chain((400..406).map(dense)) {
        every_pair().for_each(|limits| within.ask_closely(limits, &corpus));
    }
    println!("{} calls", within.caller.calls);
}

#[test]
fn some_pairs_on_larger_corpora() {
    let mut within = Within::new(12);
    let medium = (500..530).map(|seed| (generate(seed, 50_000), 10));
    let large = (530..532).map(|seed| (generate(seed, LARGE), 8));
    for (corpus, pairs) in medium.chain(large) {
        for _ in 0..pairs {
            let limits = within.limits();
            within.ask_closely(limits, &corpus);
        }
    }
    println!("{} calls", within.caller.calls);
}

/// 29 before anything else, whatever the corpus is.
#[test]
fn limits_out_of_range() {
    const NUMBERS: [u32; 12] = [
        0,
        1,
        4,
        8,
        63,
        64,
        65,
        66,
        256 + 8,
        1 << 16,
        1 << 31,
        u32::MAX,
    ];
    let mut within = Within::new(13);
    let least = dense(1)[..4].to_vec();
    let corpora = [
        Vec::new(),
        least,
        vec![0; 21],
        dense(7),
        generate(1, 20_000),
    ];
    let mut refused = 0;
    for corpus in corpora {
        for (lookups, objects) in NUMBERS
            .iter()
            .flat_map(|lookups| NUMBERS.map(|objects| (*lookups, objects)))
        {
            let given = within.ask(Limits { lookups, objects }, &corpus);
            let fine = (1..=64).contains(&lookups) && (1..=65).contains(&objects);
            assert_eq!(given == Err((29, 0)), !fine, "{lookups} and {objects}");
            refused += u32::from(!fine);
        }
    }
    println!("{} calls, {refused} refused with 29", within.caller.calls);
}

/// Two exports of one hash, one of them told a class by a script object so many deep: with fewer objects the other is alone.
#[test]
fn more_objects_and_a_key_twice() {
    let mut within = Within::new(14);
    for depth in 2..=OBJECTS {
        let corpus = ladder::told_twice(depth.into()).bytes();
        let mut at = |objects| {
            let lookups = 8;
            within.ask(Limits { lookups, objects }, &corpus)
        };
        assert!(at(depth - 1).is_ok(), "{depth}");
        assert_eq!(at(depth), Err((24, 2)), "{depth}");
    }
}

/// How often something that was not known is known within greater limits.
#[derive(Debug, Default)]
struct Gained {
    classes: u64,
    natives: u64,
}

/// What is known stays known, with the same text, and the rest of the row stays but for the kind of an unknown class.
fn stays(first: &[u8], second: &[u8], gained: &mut Gained) {
    let [instance, export, outer, class, native, reference] = texts(first);
    let [instance2, export2, outer2, class2, native2, reference2] = texts(second);
    assert_eq!(first[..3], second[..3], "version, kind, numbered");
    assert_eq!(
        [instance, export, outer, reference],
        [instance2, export2, outer2, reference2]
    );
    if first[4] == 1 {
        assert_eq!((second[3], second[4], class2), (first[3], 1, class));
    }
    if first[5] == 1 {
        assert_eq!((second[5], native2), (1, native));
    }
    gained.classes += u64::from(first[4] < second[4]);
    gained.natives += u64::from(first[5] < second[5]);
}

#[test]
fn known_stays_known() {
    let mut within = Within::new(15);
    let mut gained = Gained::default();
    let (mut held, mut refused) = (0, 0);
    let ladders = [ladder::chains().bytes(), ladder::told().bytes()];
    for seed in 400_000.. {
        if held == 10_000 {
            break;
        }
        let corpus = match seed % 50 {
            0 => ladders[seed as usize / 50 % 2].clone(),
            1..4 => spelt(seed).bytes(),
            _ => dense(seed),
        };
        let (one, other) = (within.limits(), within.limits());
        let least = Limits {
            lookups: one.lookups.min(other.lookups),
            objects: one.objects.min(other.objects),
        };
        let Ok(first) = within.ask(least, &corpus) else {
            continue;
        };
        let Ok(second) = within.ask(other, &corpus) else {
            refused += 1;
            continue;
        };
        held += 1;
        let (before, after) = (sections(&first), sections(&second));
        assert_eq!(before.len(), after.len());
        for (before, after) in before.iter().zip(&after) {
            let (before, after) = (rows(before), rows(after));
            assert_eq!(before.len(), after.len());
            let both = before.iter().zip(&after);
            both.for_each(|(first, second)| stays(first, second, &mut gained));
        }
    }
    println!(
        "{held} corpora; {gained:?} with greater limits, with which {refused} more are refused"
    );
    assert!(gained.classes > 100 && gained.natives > 100);
}

/// Demand 3 with limits, the same for both calls.
#[test]
fn sections_stay() {
    let mut within = Within::new(16);
    let mut random = Random(17);
    let mut held = 0;
    for corpus in (500_000..502_000).map(dense) {
        let limits = within.limits();
        let Ok(old) = within.ask(limits, &corpus) else {
            continue;
        };
        let other = rearrange(&corpus, &mut random);
        let new = within.ask(limits, &other.corpus);
        let new = new.expect("accepted as before");
        assert_eq!((new.len(), &new[..9]), (old.len(), &old[..9]));
        let (before, after) = (sections(&old), sections(&new));
        for (section, from) in after.iter().zip(&other.order) {
            assert_eq!(*section, before[*from]);
        }
        held += 1;
    }
    println!("{held} corpora rearranged");
    assert!(held > 1_000);
}
