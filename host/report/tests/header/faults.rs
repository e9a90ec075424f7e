//! Each fault is 27, whatever the buffer; without it there is a header, and 28 where the buffer is shorter.
use corpus::damage::{ILL_FORMED, malformed, sound_description};
use corpus::generate::{LONGEST_NAME, filled};

use crate::asked::Asked;

#[test]
fn each_is_27() {
    let mut asked = Asked::new(7);
    for seed in 0..3 {
        let base = sound_description(seed);
        let draft = base.draft();
        assert!(asked.ask(&base.bytes()).is_some(), "without a fault");
        let all = malformed(&draft);
        println!("{} faults", all.len());
        for fault in &all {
            let mut draft = draft.clone();
            fault.apply(&mut draft);
            assert_eq!(asked.ask(&draft.bytes()), None, "{}", fault.name);
        }
    }
    asked.all_of(3_000, &[0, 27, 28]);
}

/// Of two faults at once, one may make up for the other: call and model say the same.
#[test]
fn two_at_once() {
    let mut asked = Asked::new(8);
    let draft = sound_description(4).draft();
    let all = malformed(&draft);
    let mut pairs = 0;
    for (i, first) in all.iter().enumerate() {
        for second in all.iter().skip(i + 1).step_by(17) {
            let mut draft = draft.clone();
            first.apply(&mut draft);
            second.apply(&mut draft);
            let answer = model::class_header(&draft.bytes(), 400);
            pairs += 1;
            assert!(
                asked.call(&draft.bytes(), 400) == answer,
                "{}, {}",
                first.name,
                second.name
            );
        }
    }
    println!("{pairs} pairs of faults, {} calls", asked.calls);
}

/// Both sides of the longest name, as a name and as an imported name.
#[test]
fn names_of_32767_units_and_one_more() {
    let mut asked = Asked::new(9);
    for word in ["a", "é", "Œ", "aŒ", "🎯", "🎯é", "a🎯"] {
        for (units, right) in [
            (LONGEST_NAME - 1, true),
            (LONGEST_NAME, true),
            (LONGEST_NAME + 1, false),
        ] {
            for i in 0..5 {
                let mut draft = sound_description(5).draft();
                draft.text(i).bytes = filled(word, units).into();
                let header = asked.ask(&draft.bytes());
                assert_eq!(header.is_some(), right, "text {i}: {units} units of {word}");
            }
        }
    }
    asked.all_of(100, &[0, 27, 28]);
}

/// Both sides of a text number, of the package and of an export.
#[test]
fn text_numbers_and_one_more() {
    let mut asked = Asked::new(10);
    for count in [1, 2, 255, 256, 257, 65_536] {
        let mut base = sound_description(6);
        base.texts = (0..count).map(|i| format!("Name{i}")).collect();
        base.exports.iter_mut().for_each(|export| export.name = 0);
        for (number, right) in [(0, true), (count - 1, true), (count, false)] {
            let mut package = base.clone();
            package.name.0 = number;
            let mut export = base.clone();
            (export.name.0, export.exports[2].name) = (0, number);
            for other in [package, export] {
                let header = asked.ask(&other.bytes());
                // The package's name has to be in the list as well.
                let right = right && other.name.0 < count;
                assert_eq!(header.is_some(), right, "text {number} of {count}");
            }
        }
    }
    asked.all_of(30, &[0, 27, 28]);
}

/// All kinds of bytes that are no UTF-8 are told apart from those that are.
#[test]
fn kinds_of_ill_formed_bytes() {
    for (kind, bytes) in ILL_FORMED {
        assert!(std::str::from_utf8(bytes).is_err(), "{kind}");
    }
}
