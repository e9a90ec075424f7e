//! Named faults: each gives its refusal and block, and of any two that are there at once the one asked about first.
mod both;

use both::both;
use corpus::damage::{Fault, accents, faults, sound};
use corpus::draft::Draft;

const SEEDS: u64 = 4;

/// The report's length, or the refusal and its block.
fn answer(base: &Draft, all: &[&Fault]) -> Result<usize, (u8, u32)> {
    let mut draft = base.clone();
    for fault in all.iter().rev() {
        fault.apply(&mut draft);
    }
    both(&draft.bytes(), draft.work, draft.report).map(|report| report.len())
}

#[test]
fn without_a_fault_accepted() {
    for seed in 0..100 {
        let answer = answer(&sound(seed), &[]);
        assert!(answer.is_ok(), "seed {seed}: {answer:?}");
    }
}

fn each_alone_on(base: &Draft) {
    for fault in faults(base) {
        let expected = Err((fault.refusal, fault.block));
        assert_eq!(answer(base, &[&fault]), expected, "{}", fault.name);
    }
}

#[test]
fn each_alone() {
    (0..SEEDS).for_each(|seed| each_alone_on(&sound(seed)));
}

/// Imported names beyond ASCII are accepted, and whatever fault is beside them decides.
#[test]
fn accents_are_no_fault() {
    let base = sound(0);
    let all = accents(&base);
    println!("{} accents", all.len());
    for accent in all {
        let mut draft = base.clone();
        accent.apply(&mut draft);
        assert_ne!(draft.bytes(), base.bytes(), "{}", accent.name);
        let answer = answer(&draft, &[]);
        assert!(answer.is_ok(), "{}: {answer:?}", accent.name);
        each_alone_on(&draft);
    }
}

/// A fault together with every one asked about later.
fn before_all(base: &Draft, first: &Fault, later: &[Fault]) {
    for second in later {
        let expected = Err((first.refusal, first.block));
        let (one, two) = (&first.name, &second.name);
        assert_eq!(answer(base, &[first, second]), expected, "{one}; {two}");
    }
}

#[test]
fn the_first_of_two() {
    for seed in 0..SEEDS {
        let base = sound(seed);
        let all = faults(&base);
        println!("{} faults", all.len());
        (0..all.len()).for_each(|i| before_all(&base, &all[i], &all[i + 1..]));
    }
}
