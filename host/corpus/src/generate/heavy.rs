//! Accepted corpora that are meant to make the check of a build's own hashes slow; `n` says how much of it there is.
use super::hostile::{BUCKETS, LONGEST, Shape, first_bucket};
use crate::name::id;
use crate::{Described, NULL, Package, ScriptEntry, Text, script_index};

/// As many objects as a path may have.
const DEEPEST: u32 = 65;

pub const SHAPES: [Shape; 7] = [
    ("chains of 65 objects in one bucket", chains),
    ("objects below 64 others", |n| below(n, "Outer")),
    ("objects below 64 long names", |n| {
        below(n.div_ceil(1_000), &"N".repeat(LONGEST / 4))
    }),
    ("long wide names of objects", |n| long_names(n, "音")),
    ("long names of objects beyond ASCII", |n| long_names(n, "Ω")),
    ("objects by the last of many names", last_name),
    ("a package by the last of many names", package_by_last_name),
];

/// n objects in one bucket of their table, each of 65 below the one before it.
fn chains(n: u32) -> Described {
    let mut corpus = Described::default();
    let halves = (1_u64 << 30)..(1 << 31);
    let globals = halves.flat_map(|half| first_bucket(BUCKETS * u64::from(n), half));
    let mut outer = NULL;
    for (i, global) in (0..n).zip(globals) {
        let outermost = i % DEEPEST == 0;
        outer = corpus.add_object(
            Text::of("O"),
            i,
            global,
            if outermost { NULL } else { outer },
        );
    }
    corpus
}

/// 64 objects of this name, each below the one before it, and n below the last.
fn below(n: u32, name: &str) -> Described {
    let mut corpus = Described {
        names: vec![Text::of(name), Text::of("Inner")],
        ..Described::default()
    };
    let own = |name, number, global, outer| ScriptEntry {
        name,
        number,
        global: script_index(global),
        outer,
    };
    let last = u64::from(DEEPEST) - 2;
    for i in 0..=last {
        let outer = i.checked_sub(1).map_or(NULL, script_index);
        corpus.entries.push(own(0, 0, i, outer));
    }
    for i in 1..=n {
        corpus
            .entries
            .push(own(1, i, last + u64::from(i), script_index(last)));
    }
    corpus.hashed()
}

/// One object in a hundred of n, all with one name of the longest, and each with an instance number of its own.
fn long_names(n: u32, letter: &str) -> Described {
    let names = vec![Text::of(&letter.repeat(LONGEST))];
    let entry = |i| ScriptEntry {
        name: 0,
        number: i,
        global: script_index(i.into()),
        outer: NULL,
    };
    Described {
        names,
        entries: (0..n.div_ceil(100)).map(entry).collect(),
        ..Described::default()
    }
    .hashed()
}

/// Ten names to each of n objects, which all have the last.
fn last_name(n: u32) -> Described {
    let entry = |i| ScriptEntry {
        name: 10 * n - 1,
        number: i,
        global: script_index(i.into()),
        outer: NULL,
    };
    Described {
        names: vec![Text::of("Name"); 10 * n as usize],
        entries: (0..n).map(entry).collect(),
        ..Described::default()
    }
    .hashed()
}

/// A package with ten times n names that is called by the last of them.
fn package_by_last_name(n: u32) -> Described {
    let mut package = Package {
        names: vec![Text::of("Name"); 10 * n as usize],
        ..Package::default()
    };
    package.name.0 = package.add_name(Text::of("/Game/Last"));
    Described {
        packages: vec![(id("/Game/Last"), package)],
        ..Described::default()
    }
}
