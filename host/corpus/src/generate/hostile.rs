//! Accepted corpora that are meant to be slow, each in its own way; `n` says how much of it there is.
use super::Random;
use super::names::WIDE;
use crate::name::id;
use crate::{Described, Export, NULL, Package, Text, import_index, script_index};

/// Names a candidate of kind 1.
const ROW: &str = "Row_GEN_VARIABLE";

/// The longest name, in units.
pub const LONGEST: usize = 32_767;

/// A name, and a corpus with so much of it.
pub type Shape = (&'static str, fn(u32) -> Described);

pub const SHAPES: [Shape; 16] = [
    ("objects in one bucket", one_bucket),
    ("class keys that agree in 47 turns", alike),
    ("class keys that agree in 111 turns", all_alike),
    ("chains of 64 classes", |n| chains(n, 1)),
    ("chains of 64 among many classes", |n| {
        chains(n, n.div_ceil(64))
    }),
    ("a ring of classes", ring),
    ("outers of 65", outers),
    ("the last of many names", |n| last_name(n, "Name", NULL)),
    ("the last of many names, thrice", |n| last_name(n, "", 0)),
    ("long names", |n| long_names(n, &"N".repeat(LONGEST))),
    ("long wide names", |n| long_names(n, &"音".repeat(LONGEST))),
    ("long imported names", |n| {
        long_imports(n, &"N".repeat(LONGEST))
    }),
    ("long imported names beyond ASCII", |n| {
        long_imports(n, &"Ω".repeat(LONGEST))
    }),
    ("two packages of one id", one_id),
    ("tiny packages", tiny),
    ("names beyond ASCII", beyond_ascii),
];

/// A corpus of one package with these names, of id 7.
fn of_package(objects: Described, package: Package) -> Described {
    let mut corpus = objects;
    corpus.packages.push((7, package));
    corpus
}

fn named(names: &[&str]) -> Package {
    Package {
        names: names.iter().map(|name| Text::of(name)).collect(),
        ..Package::default()
    }
}

/// A row with this class, whose name is the first of the batch.
fn row(number: u32, class: u64) -> Export {
    Export {
        name: 0,
        number,
        outer: NULL,
        class,
        super_index: NULL,
        hash: 0,
    }
}

/// A class with this super and hash, whose name is the second of the batch; object 0 is to be `natives`' own.
fn class(super_index: u64, hash: u64) -> Export {
    Export {
        name: 1,
        number: 0,
        outer: NULL,
        class: script_index(0),
        super_index,
        hash,
    }
}

/// Script objects `Class` and `Native`, numbered from 0.
fn natives() -> Described {
    let mut corpus = Described::default();
    for (i, name) in ["Class", "Native"].iter().enumerate() {
        corpus.add_object(Text::of(name), 0, script_index(i as u64), NULL);
    }
    corpus
}

// ---- Tables

const FACTOR: u64 = 0x9e37_79b9_7f4a_7c15;

/// The bucket of a key among n, as the call's table has it (crates/table/specs/Tree.antt).
pub fn bucket(n: u64, lo: u64, hi: u64) -> u64 {
    let x = (hi ^ lo.wrapping_mul(FACTOR)).wrapping_mul(FACTOR);
    ((x >> 32) * n) >> 32
}

/// How many buckets the table of objects has for each of them (crates/objects/specs/Work.antt).
pub const BUCKETS: u64 = 3;

/// The two words by which an object is found.
pub fn object_key(global: u64) -> (u64, u64) {
    (0, global)
}

/// Global indices below 2^32 with this upper half that fall into the first of n buckets. Products of consecutive numbers
/// and a factor go round in even steps, so from one that is low the next is one of three numbers of steps away.
pub fn first_bucket(n: u64, half: u64) -> impl Iterator<Item = u64> {
    let global = move |u: u64| half << 32 | u;
    let low = move |u: u64| {
        let (lo, hi) = object_key(global(u));
        bucket(n, lo, hi) == 0
    };
    let few = (1_u64 << 32).div_ceil(n);
    let first = |sign: u64| {
        let turned = |d: &u64| d.wrapping_mul(FACTOR).wrapping_mul(sign) >> 32 < few;
        (1..1 << 32).find(turned).expect("a step that comes near")
    };
    let (up, down) = (first(1), first(u64::MAX));
    let steps = [up.min(down), up.max(down), up + down];
    let next = move |u: &u64| steps.iter().map(|d| u + d).find(|u| low(*u));
    let inside = |u: &u64| *u < 1 << 32;
    let start = (0..1 << 32).find(|u| low(*u));
    std::iter::successors(start, next)
        .take_while(inside)
        .map(global)
}

/// n objects, all in one bucket of their table, and a row for each.
fn one_bucket(n: u32) -> Described {
    let mut corpus = Described::default();
    let mut package = named(&[ROW]);
    let halves = (1_u64 << 30)..(1 << 31);
    let globals = halves.flat_map(|half| first_bucket(BUCKETS * u64::from(n), half));
    for (i, global) in (0..n).zip(globals) {
        corpus.add_object(Text::of("O"), i, global, NULL);
        package.exports.push(row(i, global));
    }
    of_package(corpus, package)
}

/// n classes of one package in a table of four buckets, since there are two objects: of their keys, turn by turn a bit of
/// the hash and then of the id, the first 47 turns agree, and 17 are left to tell them apart. A row for each.
fn alike(n: u32) -> Described {
    let mut package = named(&[ROW, ""]);
    let classes = (1..=u64::from(n)).map(|i| class(script_index(1), i << 47));
    package.exports.extend(classes);
    let rows = (0..n).map(|i| row(i, i.into()));
    package.exports.extend(rows);
    of_package(natives(), package)
}

/// n packages, each with a class and a row of it. All hashes are one, and of the ids the first 47 bits agree.
fn all_alike(n: u32) -> Described {
    let mut corpus = natives();
    for i in 0..n {
        let mut package = named(&[ROW, ""]);
        package.exports.push(class(script_index(1), 1));
        package.exports.push(row(i, 0));
        corpus.packages.push((u64::from(i) << 47, package));
    }
    corpus
}

// ---- Chains

/// Classes on 64 levels, so many on each, all with a super of the level above, and n rows of classes of the lowest.
fn chains(n: u32, wide: u32) -> Described {
    let mut random = Random(1);
    let mut package = named(&[ROW, ""]);
    let wide = u64::from(wide);
    for i in 0..64 * wide {
        let super_index = match i / wide {
            0 => script_index(1),
            level => (level - 1) * wide + random.below(wide),
        };
        package.exports.push(class(super_index, i + 1));
    }
    let rows = (0..n).map(|i| row(i, 63 * wide + random.below(wide)));
    package.exports.extend(rows);
    of_package(natives(), package)
}

/// n classes in a ring, and a row of each.
fn ring(n: u32) -> Described {
    let mut package = named(&[ROW, ""]);
    let count = u64::from(n);
    let classes = (0..count).map(|i| class((i + 1) % count, i + 1));
    package.exports.extend(classes);
    package.exports.extend((0..n).map(|i| row(i, i.into())));
    of_package(natives(), package)
}

/// n exports, each a class and a row, whose class lies in 64 objects.
fn outers(n: u32) -> Described {
    let mut corpus = Described::default();
    let mut outer = NULL;
    for i in 0..65 {
        let name = if i == 64 { "Class" } else { "o" };
        outer = corpus.add_object(Text::of(name), 0, script_index(i), outer);
    }
    let mut package = named(&[ROW]);
    package.exports.extend((0..n).map(|i| Export {
        super_index: outer,
        hash: u64::from(i) + 1,
        ..row(i, outer)
    }));
    of_package(corpus, package)
}

// ---- Names

/// Ten names to each of n rows, all alike but the last, which every row has; and so has the export that is outer and class
/// of all, if there is one.
fn last_name(n: u32, name: &str, above: u64) -> Described {
    let mut package = Package {
        names: vec![Text::of(name); 10 * n as usize],
        ..Package::default()
    };
    let last = package.add_name(Text::of(ROW));
    package.exports.extend((0..n).map(|i| Export {
        name: last,
        outer: above,
        ..row(i, above)
    }));
    of_package(Described::default(), package)
}

/// One row in a hundred of n, all with one long name, which is that of the outer and the class too.
fn long_names(n: u32, name: &str) -> Described {
    let end = "_GEN_VARIABLE";
    let keep = name.chars().count() - end.len();
    let name: String = name.chars().take(keep).chain(end.chars()).collect();
    let mut package = named(&[&name]);
    let rows = (0..n.div_ceil(100)).map(|i| Export {
        outer: 0,
        ..row(i, 0)
    });
    package.exports.extend(rows);
    of_package(Described::default(), package)
}

/// One row in a hundred of n, each of a class of one package that has a long name.
fn long_imports(n: u32, name: &str) -> Described {
    let mut package = named(&[ROW]);
    package.imported.push((Text::of(name), 0));
    package.hashes.push(1);
    let rows = (0..n.div_ceil(100)).map(|i| row(i, import_index(0, 0)));
    package.exports.extend(rows);
    of_package(natives(), package)
}

/// n rows with names of their own, none of them in ASCII, of classes that have such names too.
fn beyond_ascii(n: u32) -> Described {
    let mut corpus = Described::default();
    let mut package = Package::default();
    package.names.push(Text::of("Größe"));
    for i in 0..n {
        let text = WIDE[i as usize % WIDE.len()];
        if i % 10 == 0 {
            let name = Text::wide(&format!("{text}{i}"));
            corpus.add_object(name, 0, script_index(u64::from(i) / 10), NULL);
        }
        let name = package.add_name(Text::wide(&format!("{text}{i}_GEN_VARIABLE")));
        package.exports.push(Export {
            name,
            ..row(0, script_index(u64::from(i) / 10))
        });
    }
    of_package(corpus, package)
}

// ---- Packages

/// Two packages of one id, each with half of n classes, and n rows in each that import one another's.
fn one_id(n: u32) -> Described {
    let mut corpus = natives();
    let half = u64::from(n).div_ceil(2);
    for part in 0..2 {
        let mut package = named(&[ROW, "Own"]);
        package.imported.push((Text::of("/One"), 0));
        let own = (0..half).map(|i| 1 + part * half + i);
        package
            .exports
            .extend(own.map(|hash| class(script_index(1), hash)));
        package.hashes = (0..half).map(|i| 1 + (1 - part) * half + i).collect();
        let rows = (0..half as u32).map(|i| row(i, import_index(0, i)));
        package.exports.extend(rows);
        corpus.packages.push((id("/One"), package));
    }
    corpus
}

/// Twice n packages, every other with a row and the rest with nothing but a name.
fn tiny(n: u32) -> Described {
    let mut corpus = natives();
    for i in 0..2 * n {
        let mut package = named(&[ROW]);
        if i % 2 == 0 {
            package.exports.push(row(i, script_index(1)));
        }
        corpus.packages.push((i.into(), package));
    }
    corpus
}
