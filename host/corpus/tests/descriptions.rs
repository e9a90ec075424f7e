//! Descriptions of headers: what the generator makes, and the two ways to write them.
use corpus::Description;
use corpus::damage::{malformed, sound_description};
use corpus::description::Features;
use corpus::generate::{LONGEST_NAME, description, description_edges, filled};

/// Every feature occurs, and what a description means as a package is that description.
#[test]
fn all_features() {
    let mut features = Features::default();
    let edges = description_edges().into_iter().map(|(_, edge)| edge);
    for description in (0..20_000).map(description).chain(edges) {
        features.add(&description);
        assert!(Description::of(&description.package()) == description);
    }
    print!("{features}");
    assert_eq!(features.missing(), Vec::<String>::new());
}

#[test]
fn the_same_from_the_same_seed() {
    assert_eq!(description(5), description(5));
    assert_ne!(description(5), description(6));
}

/// The header differs from that of the same package only in bytes that are 0 in it.
#[test]
fn written_with_zeros() {
    let described = sound_description(1);
    let plain = described.package().bytes();
    let cleared = described.header();
    assert_eq!(plain.len(), cleared.len());
    let mut differ = plain.iter().zip(&cleared).filter(|(a, b)| a != b);
    assert!(differ.all(|(_, byte)| *byte == 0));
}

#[test]
fn as_many_units_as_wanted() {
    for word in ["a", "é", "🎯", "a🎯", "🎯é"] {
        for units in [0, 1, 2, 3, LONGEST_NAME, LONGEST_NAME + 1] {
            assert_eq!(filled(word, units).encode_utf16().count(), units);
        }
    }
}

/// Each fault changes the bytes.
#[test]
fn faults_are_changes() {
    let draft = sound_description(2).draft();
    let all = malformed(&draft);
    for fault in &all {
        let mut other = draft.clone();
        fault.apply(&mut other);
        assert_ne!(other.bytes(), draft.bytes(), "{}", fault.name);
    }
    println!("{} faults", all.len());
}
