//! Drafts that are accepted and have all that a fault wants to edit.
use crate::draft::Draft;
use crate::generate::Random;
use crate::{Described, Export, NULL, Package, Text, import_index, script_index};

/// An accepted corpus: a script block and two packages, each with a class, rows, bulk bytes, hashes, imports, regions,
/// imported names and bytes past the header. In every batch the first name is wide, the last has one byte to a
/// character, and none is empty.
pub fn sound(seed: u64) -> Draft {
    let mut random = Random(seed ^ 0x50_0d);
    let mut corpus = Described::default();
    let engine = corpus.add_object(Text::wide("/Script/🎧"), 0, script_index(5), NULL);
    for i in 0..2 + random.below(3) {
        let name = *random.pick(&["Class", "Tone", "Böoth"]);
        let outer = *random.pick(&[NULL, engine]);
        corpus.add_object(Text::of(name), i as u32, script_index(i), outer);
    }
    let meta = corpus.add_object(Text::of("Class"), 0, script_index(9), engine);
    let packages = [0, 1].map(|i| (100 + i, package(&mut random, meta, i)));
    corpus.packages = packages.into();
    corpus.draft()
}

fn package(random: &mut Random, meta: u64, i: u64) -> Package {
    let mut p = Package {
        names: vec![
            Text::wide("Pö🎧"),
            Text::wide("Left"),
            Text::of("Default__Own"),
            Text::of("Tone_GEN_VARIABLE"),
        ],
        name: (random.below(4) as u32, random.below(3) as u32),
        bulk: vec![0xb0; 1 + random.below(9) as usize],
        hashes: vec![1 + i, 0, 7],
        imports: vec![0; 1 + random.below(3) as usize],
        imported: vec![
            (Text::wide("/Game/Other"), 0),
            (Text::of("/Game/Booth"), random.below(3) as u32),
        ],
        skipped: std::array::from_fn(|_| vec![0xe0; 8 + random.below(3) as usize]),
        tail: vec![0x7a; 1 + random.below(3) as usize],
        ..Package::default()
    };
    // Two classes of different keys, a default object, and a row of each kind.
    for (name, class, hash) in [(0, meta, 1), (0, meta, 2), (2, 0, 3), (3, 1, 0), (1, 0, 0)] {
        p.exports.push(Export {
            name,
            number: random.below(3) as u32,
            outer: 2,
            class,
            super_index: *random.pick(&[0, script_index(0), import_index(0, 0)]),
            hash,
        });
    }
    p
}
