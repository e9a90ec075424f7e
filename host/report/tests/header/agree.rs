//! Random descriptions and those at an edge, as they are and damaged, with a count of what they had. Whatever none had fails
//! the test.
use corpus::damage::damage_description;
use corpus::description::Features;
use corpus::generate::{FILLINGS, Random, description, description_edges, lengthy};

use crate::apart::Apart;
use crate::asked::Asked;

const RANDOM: u64 = 110_000;

#[test]
fn call_model_and_reference_agree() {
    let mut asked = Asked::new(1);
    let mut features = Features::default();
    let mut apart = Apart::default();
    for seed in 0..RANDOM {
        let description = description(seed);
        features.add(&description);
        let bytes = description.bytes();
        let header = asked.ask(&bytes).expect("it can be written");
        apart.add(&bytes, header);
    }
    for (name, description) in description_edges() {
        features.add(&description);
        let bytes = description.bytes();
        let header = asked.ask(&bytes);
        apart.add(&bytes, header.unwrap_or_else(|| panic!("{name}")));
    }
    print!("{features}");
    assert_eq!(features.missing(), Vec::<String>::new());
    asked.all_of(RANDOM, &[0, 28]);
    apart.all_of(RANDOM / 2);
}

/// Bytes changed, taken out, put in or cut off.
#[test]
fn damaged_descriptions_agree() {
    let mut asked = Asked::new(2);
    let mut apart = Apart::default();
    let mut random = Random(3);
    for seed in RANDOM..RANDOM + 60_000 {
        let bytes = damage_description(&mut random, &description(seed).bytes());
        if let Some(header) = asked.ask(&bytes) {
            apart.add(&bytes, header);
        }
    }
    asked.all_of(60_000, &[0, 27, 28]);
    apart.all_of(10_000);
}

/// Headers of every length from one on, made of each kind of entry.
#[test]
fn as_long_as_wanted() {
    let mut asked = Asked::new(4);
    for filling in &FILLINGS {
        let lengths = (110..500).chain(65_500..65_560).chain([131_222, 1_000_003]);
        for length in lengths {
            let header = asked.ask(&lengthy(filling, length)).expect(filling.name);
            assert_eq!(header.len() as u64, length, "{}", filling.name);
        }
    }
    asked.all_of(2_000, &[0, 28]);
}
