//! Imports by names beyond ASCII: how they are spelt here, where they are imported, and there, by the package itself.
use super::{Census, Tables};
use crate::decode::Package;
use crate::kind;
use crate::name::{id, lower};

/// Capitals of several scripts, and characters that are lowered otherwise than one may think.
const SPECIAL: [(char, &str); 10] = [
    ('É', "accents: found with U+00C9"),
    ('\u{130}', "accents: found with U+0130"),
    ('Œ', "accents: found with U+0152"),
    ('\u{1c5}', "accents: found with U+01C5"),
    ('Ω', "accents: found with U+03A9"),
    ('ς', "accents: found with U+03C2"),
    ('Д', "accents: found with U+0414"),
    ('\u{1e9e}', "accents: found with U+1E9E"),
    ('\u{212a}', "accents: found with U+212A"),
    ('\u{10400}', "accents: found with U+10400"),
];

/// Characters that are not lowered to one another.
const APART: [([char; 2], &str); 2] = [
    (['i', '\u{130}'], "accents: missed, i for U+0130"),
    (['σ', 'ς'], "accents: missed, U+03C3 for U+03C2"),
];

/// Counts the class reference of a row in package i, if it is an import.
pub fn count(census: &mut Census, tables: &Tables, i: usize, index: u64) {
    let package = &tables.corpus.packages[i];
    let number = (index >> 32 & 0x3fff_ffff) as usize;
    if kind(index) != 2 || number >= package.numbers.len() {
        return;
    }
    match tables.class(i, index) {
        Some((there, _)) => found(census, package, number, &tables.corpus.packages[there]),
        None => missed(census, tables, package, (number, index as u32)),
    }
}

/// An import that is found in a package which is known by its own name.
fn found(census: &mut Census, package: &Package, import: usize, there: &Package) {
    let imported = package.imported(import);
    let own = there.batch.rendered(there.name);
    if id(&own) != there.id || imported.is_ascii() && own.is_ascii() {
        return;
    }
    let wide = [
        &package.imported.names[import],
        &there.batch.names[there.name.0],
    ]
    .map(|n| n.wide);
    census.note(
        match wide {
            [false, false] => "accents: Latin-1 here and there",
            [false, true] => "accents: Latin-1 here, UTF-16 there",
            [true, false] => "accents: UTF-16 here, Latin-1 there",
            [true, true] => "accents: UTF-16 here and there",
        },
        true,
    );
    let numbered = package.numbers[import] != 0;
    census.note("accents: numbered here", numbered);
    census.note(
        "accents: numbered here, written out there",
        numbered && there.name.1 == 0,
    );
    of_characters(census, &imported, &own);
}

/// Two spellings of one name, which have as many characters.
fn of_characters(census: &mut Census, here: &str, there: &str) {
    let capital = |c: char| lower(c) != c;
    let both = here.chars().zip(there.chars());
    let accents = both.filter(|(a, b)| !a.is_ascii() || !b.is_ascii());
    let any = |test: fn((char, char)) -> bool| accents.clone().any(test);
    let pair = |c: char| c > '\u{ffff}' && capital(c);
    census.note(
        "accents: capital here, small there",
        any(|(a, b)| lower(a) == b && a != b),
    );
    census.note(
        "accents: small here, capital there",
        any(|(a, b)| lower(b) == a && a != b),
    );
    census.note(
        "accents: a surrogate pair lowered",
        accents.clone().any(|(a, b)| pair(a) || pair(b)),
    );
    for (special, feature) in SPECIAL {
        let there = accents.clone().any(|(a, b)| a == special || b == special);
        census.note(feature, there);
    }
}

/// An import that is not found, and would be if characters were lowered that are not.
fn missed(census: &mut Census, tables: &Tables, package: &Package, (import, hash): (usize, u32)) {
    let Some(hash) = package.hashes.get(hash as usize) else {
        return;
    };
    let here = package.imported(import);
    let near = tables.mistaken.get(&mistaken(&here));
    let near = near.filter(|there| tables.classes.contains_key(&(id(there), *hash)));
    for (two, feature) in APART {
        let apart = |(a, b): (char, char)| {
            let both = two.contains(&lower(a)) && two.contains(&lower(b));
            both && lower(a) != lower(b)
        };
        let missed = near.is_some_and(|there| here.chars().zip(there.chars()).any(apart));
        census.note(feature, missed);
    }
}

/// A name lowered further than it is.
pub fn mistaken(name: &str) -> String {
    let further = |c| match APART.iter().find(|(two, _)| two[1] == c) {
        Some((two, _)) => two[0],
        None => c,
    };
    name.chars().map(lower).map(further).collect()
}
