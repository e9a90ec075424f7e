//! Small corpora about the spelling of names: packages with a class each, and rows that import one another's by names
//! beyond ASCII, spelt in every way.
use super::Random;
use super::spelling::{ACCENTED, mistaken, mixed, spelled};
use crate::name::{id, pairs, rendered};
use crate::{Described, Export, NULL, Package, Text, import_index, script_index};
use std::collections::HashSet;
use std::sync::LazyLock;

/// Every character that lowering changes, and those that it makes.
static LETTERS: LazyLock<Vec<char>> = LazyLock::new(|| {
    pairs()
        .flat_map(|(capital, small)| [capital, small])
        .collect()
});

/// A name and an instance number.
pub(super) struct Known {
    pub(super) name: String,
    number: u32,
}

/// A corpus of a class in each of some packages, and in each a row of every other's.
pub fn spelt(seed: u64) -> Described {
    let mut random = Random(seed ^ 0x5be1_7000);
    let mut corpus = Described::default();
    for (i, name) in ["Class", "Native"].iter().enumerate() {
        corpus.add_object(Text::of(name), 0, script_index(i as u64), NULL);
    }
    let known: Vec<Known> = (0..2 + random.below(5))
        .map(|_| name(&mut random))
        .collect();
    let mut ids = HashSet::new();
    for own in &known {
        let id = id(&rendered(&own.name, own.number));
        // A name may come twice; its class would too.
        if ids.insert(id) {
            let package = package(&mut random, own, &known);
            corpus.packages.push((id, package));
        }
    }
    corpus
}

/// A name of a word beyond ASCII, of letters of all scripts, or of characters of all planes.
pub(super) fn name(random: &mut Random) -> Known {
    let most = if random.chance(10) { 80 } else { 12 };
    let length = random.below(most);
    let word: String = match random.below(10) {
        0..6 => (*random.pick(&ACCENTED)).to_owned(),
        6..8 => (0..length).map(|_| *random.pick(&LETTERS)).collect(),
        _ => (0..length).map(|_| character(random)).collect(),
    };
    let name = [["/", "/Game/"][random.below(2) as usize], &word].concat();
    Known {
        name: mixed(random, &name),
        number: random.below(3) as u32,
    }
}

/// A character of any plane; U+FFFD for a surrogate.
fn character(random: &mut Random) -> char {
    let number = random.below(0x11_0000) as u32;
    char::from_u32(number).unwrap_or('\u{fffd}')
}

/// A spelling of a name, with its number or with the number written out.
fn spelling(random: &mut Random, known: &Known) -> (Text, u32) {
    if random.chance(40) {
        let whole = rendered(&known.name, known.number);
        (spelled(random, &whole), 0)
    } else {
        (spelled(random, &known.name), known.number)
    }
}

/// A package of one of the names, which imports all of them.
fn package(random: &mut Random, own: &Known, known: &[Known]) -> Package {
    let (name, number) = spelling(random, own);
    let mut p = Package {
        names: vec![Text::of("Own"), Text::of("Row_GEN_VARIABLE")],
        hashes: vec![1],
        ..Package::default()
    };
    p.name = (p.add_name(name), number);
    for other in known {
        let imported = match mistaken(&other.name) {
            Some(another) if random.chance(30) => (Text::of(&another), other.number),
            _ => spelling(random, other),
        };
        p.imported.push(imported);
    }
    p.exports = exports(random, known.len() as u32);
    p
}

/// A class, whose super is native or imported, and a row of each imported class.
fn exports(random: &mut Random, imported: u32) -> Vec<Export> {
    let class = Export {
        name: 0,
        number: 0,
        outer: NULL,
        class: script_index(0),
        super_index: if random.chance(50) {
            script_index(1)
        } else {
            import_index(random.below(imported.into()) as u32, 0)
        },
        hash: 1,
    };
    let row = |k| Export {
        name: 1,
        number: k,
        class: import_index(k, 0),
        super_index: NULL,
        hash: 0,
        ..class
    };
    let rows = (0..imported).map(row);
    std::iter::once(class).chain(rows).collect()
}
