//! Corpora that go step by step to a limit and past it, or through the whole of lowering.
use super::names::ODD;
use crate::name::{id, pairs, rendered};
use crate::{Described, Export, NULL, Package, Text, import_index, script_index};
use std::collections::HashSet;

/// A package of this name, and beside it the names `Own` (1) and `Row_GEN_VARIABLE` (2).
fn package(name: &str) -> Package {
    Package {
        names: [name, "Own", "Row_GEN_VARIABLE"].map(Text::of).to_vec(),
        ..Package::default()
    }
}

/// A candidate with this class.
fn row(number: u32, class: u64) -> Export {
    Export {
        name: 2,
        number,
        outer: NULL,
        class,
        super_index: NULL,
        hash: 0,
    }
}

/// A class with this super, and hash 1.
fn class(super_index: u64) -> Export {
    Export {
        name: 1,
        number: 0,
        outer: NULL,
        class: script_index(1),
        super_index,
        hash: 1,
    }
}

/// Script objects `/S`, `/S.Class` and `/S.Native`, numbered from 0.
fn natives() -> Described {
    let mut corpus = Described::default();
    for (i, (name, outer)) in [
        ("/S", NULL),
        ("Class", script_index(0)),
        ("Native", script_index(0)),
    ]
    .iter()
    .enumerate()
    {
        corpus.add_object(Text::of(name), 0, script_index(i as u64), *outer);
    }
    corpus
}

/// Rows whose classes are paths of 1 to 66 objects; the last is one too long.
pub fn paths() -> Described {
    let mut corpus = Described::default();
    let mut p = package("/P");
    let mut outer = NULL;
    for i in 0..66 {
        let name = ODD.get(i as usize % 10).copied().unwrap_or("D");
        outer = corpus.add_object(Text::of(name), 0, script_index(i), outer);
        p.exports.push(row(i as u32, outer));
    }
    corpus.packages.push((1, p));
    corpus
}

/// Rows whose chains have 0 to 67 classes, each in a package of its own; classes of the same package and imported ones.
pub fn chains() -> Described {
    let mut corpus = natives();
    let name = |i: u64| format!("/C{i}");
    for i in 0..67 {
        let mut p = package(&name(i));
        let super_index = if i == 0 {
            p.exports.push(row(1, script_index(2)));
            script_index(2)
        } else {
            p.imported.push((Text::of(&name(i - 1)), 0));
            p.hashes.push(1);
            p.exports.push(row(2, import_index(0, 0)));
            import_index(0, 0)
        };
        let own = p.exports.len() as u64;
        p.exports.push(class(super_index));
        p.exports.push(row(0, own));
        corpus.packages.push((id(&name(i)), p));
    }
    corpus
}

/// Script objects `D` from 0 on, each in the one before it, and beside each a `Class` (from 100 on), so many deep.
fn deep_classes(depth: u64) -> Described {
    let mut corpus = Described::default();
    let mut outer = NULL;
    for i in 0..depth {
        corpus.add_object(Text::of("Class"), 0, script_index(100 + i), outer);
        outer = corpus.add_object(Text::of("D"), 0, script_index(i), outer);
    }
    corpus
}

/// An export of this hash, told a class by the `Class` that is so many deep.
fn told_class(depth: u64, hash: u64, super_index: u64) -> Export {
    Export {
        class: script_index(99 + depth),
        hash,
        ..class(super_index)
    }
}

/// Classes that are told so by objects 1 to 66 deep, each the super of the next, and a row for each of them.
pub fn told() -> Described {
    let mut corpus = deep_classes(66);
    let mut p = package("/P");
    for depth in 1..=66 {
        let super_index = if depth == 1 {
            script_index(0)
        } else {
            depth - 2
        };
        p.exports.push(told_class(depth, depth, super_index));
    }
    p.exports.extend((0..66).map(|i| row(i as u32, i)));
    corpus.packages.push((1, p));
    corpus
}

/// Two exports of one hash, each told a class: the first by an object so many deep, the second by one without an outer.
pub fn told_twice(depth: u64) -> Described {
    let mut corpus = deep_classes(depth);
    let mut p = package("/P");
    p.exports = vec![
        told_class(depth, 1, script_index(0)),
        told_class(1, 1, script_index(0)),
        row(0, 1),
    ];
    corpus.packages.push((1, p));
    corpus
}

/// Classes in a ring of this many packages, with a row for each; a ring of script objects.
pub fn ring(packages: u64) -> Described {
    let mut corpus = natives();
    for i in 0..packages {
        let mut p = package(&format!("/R{i}"));
        let next = format!("/R{}", (i + 1) % packages);
        p.imported.push((Text::of(&next), 0));
        p.hashes.push(1);
        p.exports = vec![
            class(import_index(0, 0)),
            row(0, 0),
            row(2, script_index(3)),
        ];
        corpus.packages.push((id(&format!("/R{i}")), p));
    }
    let (one, other) = (script_index(3), script_index(4));
    corpus.add_object(Text::of("Ring"), 0, one, other);
    corpus.add_object(Text::of("Ring"), 0, other, one);
    corpus
}

/// Of the characters that lowering changes one in so many, each in the name of a package with a class, spelt as it is or
/// lowered, with an instance number or none. The first package has a row for either spelling, one of them wide.
pub fn lowered(one_in: usize) -> Described {
    let mut corpus = natives();
    let mut rows = package("/Rows");
    rows.hashes.push(1);
    let mut ids = HashSet::new();
    for (i, (capital, small)) in pairs().step_by(one_in).enumerate() {
        let (names, number) = ([capital, small].map(|c| format!("/{c}")), i as u32 % 3);
        let texts = [Text::of(&names[0]), Text::wide(&names[1])];
        for text in texts {
            let k = rows.imported.len() as u32;
            rows.imported.push((text, number));
            rows.exports.push(row(k, import_index(k, 0)));
        }
        // Two capitals have one small letter: U+212A and K.
        let id = id(&rendered(&names[0], number));
        if ids.insert(id) {
            let mut own = package(&names[i % 2]);
            own.name.1 = number;
            own.exports.push(class(script_index(2)));
            corpus.packages.push((id, own));
        }
    }
    corpus.packages.insert(0, (id("/Rows"), rows));
    corpus
}

/// All of them: the rings of one package and of three, and one in so many of the characters that lowering changes.
pub fn all(one_in: usize) -> [Described; 5] {
    [paths(), chains(), ring(1), ring(3), lowered(one_in)]
}
