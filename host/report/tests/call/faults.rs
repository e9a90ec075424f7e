//! Named faults: each gives its refusal and block, and of any two that are there at once the one asked about first.
use corpus::damage::{Fault, accents, faults, sound};
use corpus::draft::Draft;

use crate::both::both;
use crate::judged::{Judged, Reports};
use crate::lent::Caller;

/// Asks about a draft with some faults, of which the first decides.
fn first_decides(caller: &mut Caller, base: &Draft, all: &[&Fault]) {
    let mut draft = base.clone();
    all.iter().rev().for_each(|fault| fault.apply(&mut draft));
    let (work, report) = (draft.work as usize, draft.report as usize);
    let given = caller.ask(&draft.bytes(), work, report);
    let names: Vec<&str> = all.iter().map(|fault| &*fault.name).collect();
    assert_eq!(given, Err((all[0].refusal, all[0].block)), "{names:?}");
}

#[test]
fn each_alone_and_the_first_of_two() {
    let mut caller = Caller::new(Reports::call, 3);
    for seed in 40..42 {
        let base = sound(seed);
        let all = faults(&base);
        println!("{} faults", all.len());
        for (i, first) in all.iter().enumerate() {
            first_decides(&mut caller, &base, &[first]);
            for second in &all[i + 1..] {
                first_decides(&mut caller, &base, &[first, second]);
            }
        }
    }
    println!("{} calls", caller.calls);
}

/// Imported names beyond ASCII are accepted, and whatever fault is beside them decides.
#[test]
fn accents_are_no_fault() {
    let mut caller = Caller::new(Reports::call, 8);
    let base = sound(43);
    for accent in accents(&base) {
        let mut draft = base.clone();
        accent.apply(&mut draft);
        let (work, report) = (draft.work as usize, draft.report as usize);
        let corpus = draft.bytes();
        let given = caller.ask(&corpus, work, report);
        let expected = both(&corpus, draft.work, draft.report);
        assert!(given.is_ok() && given == expected, "{}", accent.name);
        for fault in faults(&draft) {
            first_decides(&mut caller, &draft, &[&fault]);
        }
    }
    println!("{} calls", caller.calls);
}
