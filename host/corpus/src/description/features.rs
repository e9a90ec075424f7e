//! What descriptions have, counted.
use super::Description;
use crate::generate::LONGEST_NAME;
use crate::name::rendered;
use crate::{Export, Text};
use std::collections::HashSet;
use std::fmt;

type Feature = (&'static str, fn(&Description) -> bool);

/// Of the lists as wholes.
const LISTS: [Feature; 16] = [
    ("one name", |d| d.texts.len() == 1),
    ("more than 65,535 names", |d| d.texts.len() > 65_535),
    ("a name twice", |d| repeated(&d.texts)),
    ("a wide name at an odd place", odd),
    ("a name that nothing has", |d| used(d) < d.texts.len()),
    ("every name had by something", |d| used(d) == d.texts.len()),
    ("no exports", |d| d.exports.is_empty()),
    ("more than 65,535 exports", |d| d.exports.len() > 65_535),
    ("no hashes", |d| d.hashes.is_empty()),
    ("more than 65,535 hashes", |d| d.hashes.len() > 65_535),
    ("a hash twice", |d| repeated(&d.hashes)),
    ("no imported names", |d| d.imported.is_empty()),
    ("more than 65,535 imported names", |d| {
        d.imported.len() > 65_535
    }),
    ("an imported name twice", |d| repeated(&d.imported)),
    ("none but names", |d| {
        d.exports.is_empty() && d.hashes.is_empty() && d.imported.is_empty()
    }),
    ("two imported names rendered alike", |d| alike(&d.imported)),
];

/// Of numbers and records.
const NUMBERS: [Feature; 18] = [
    ("package by name 0", |d| d.name.0 == 0),
    ("package by a last name behind others", |d| {
        d.name.0 > 0 && d.name.0 as usize + 1 == d.texts.len()
    }),
    ("package number 0", |d| d.name.1 == 0),
    ("package number of all bits", |d| d.name.1 == u32::MAX),
    ("export by a last name behind others", |d| {
        let last = d.texts.len() as u32 - 1;
        last > 0 && d.exports.iter().any(|e| e.name == last)
    }),
    ("export number 0", |d| {
        d.exports.iter().any(|e| e.number == 0)
    }),
    ("export number of all bits", |d| {
        d.exports.iter().any(|e| e.number == u32::MAX)
    }),
    ("outer 0", |d| any_is(d, |e| e.outer, 0)),
    ("outer of all bits", |d| any_is(d, |e| e.outer, u64::MAX)),
    ("class 0", |d| any_is(d, |e| e.class, 0)),
    ("class of all bits", |d| any_is(d, |e| e.class, u64::MAX)),
    ("super 0", |d| any_is(d, |e| e.super_index, 0)),
    ("super of all bits", |d| {
        any_is(d, |e| e.super_index, u64::MAX)
    }),
    ("public hash 0", |d| any_is(d, |e| e.hash, 0)),
    ("public hash of all bits", |d| {
        any_is(d, |e| e.hash, u64::MAX)
    }),
    ("hashes 0 and of all bits", |d| {
        d.hashes.contains(&0) && d.hashes.contains(&u64::MAX)
    }),
    ("imported number 0", |d| d.imported.iter().any(|i| i.1 == 0)),
    ("imported number of all bits", |d| {
        d.imported.iter().any(|i| i.1 == u32::MAX)
    }),
];

type TextFeature = (&'static str, fn(&str) -> bool);

/// Of a text, whether it is a name or an imported name.
const TEXTS: [TextFeature; 18] = [
    ("empty", str::is_empty),
    ("with U+0000", |t| t.contains('\0')),
    ("with U+007F", |t| t.contains('\u{7f}')),
    ("Latin-1 with U+0080", |t| latin1(t) && t.contains('\u{80}')),
    ("Latin-1 with U+00FF", |t| latin1(t) && t.contains('\u{ff}')),
    ("wide with U+00FF", |t| !latin1(t) && t.contains('\u{ff}')),
    ("with U+0100", |t| t.contains('\u{100}')),
    ("with U+07FF", |t| t.contains('\u{7ff}')),
    ("with U+0800", |t| t.contains('\u{800}')),
    ("with U+D7FF", |t| t.contains('\u{d7ff}')),
    ("with U+E000", |t| t.contains('\u{e000}')),
    ("with U+FFFF", |t| t.contains('\u{ffff}')),
    ("with U+10000", |t| t.contains('\u{10000}')),
    ("with U+10FFFF", |t| t.contains(char::MAX)),
    ("ASCII of 32,767 units", |t| longest(t) && t.is_ascii()),
    ("accents of 32,767 units", |t| {
        longest(t) && latin1(t) && !t.is_ascii()
    }),
    ("wide of 32,767 units", |t| longest(t) && !latin1(t)),
    ("wide of 32,767 units with pairs", |t| {
        longest(t) && t.chars().any(|c| c > '\u{ffff}')
    }),
];

fn repeated<T: std::hash::Hash + Eq>(all: &[T]) -> bool {
    all.iter().collect::<HashSet<_>>().len() < all.len()
}

/// Whether a wide name starts at an odd place among the strings.
fn odd(d: &Description) -> bool {
    let mut at = 0;
    d.texts.iter().any(|text| {
        let start = at;
        let wide = !latin1(text);
        at += text.encode_utf16().count() * if wide { 2 } else { 1 };
        wide && start % 2 == 1
    })
}

/// How many names the package or an export has.
fn used(d: &Description) -> usize {
    let exports = d.exports.iter().map(|e| e.name);
    exports.chain([d.name.0]).collect::<HashSet<_>>().len()
}

fn any_is(d: &Description, of: fn(&Export) -> u64, value: u64) -> bool {
    d.exports.iter().any(|e| of(e) == value)
}

/// Whether two that differ are one when rendered.
fn alike(imported: &[(String, u32)]) -> bool {
    let apart: HashSet<_> = imported.iter().collect();
    let rendered: HashSet<String> = apart.iter().map(|i| rendered(&i.0, i.1)).collect();
    rendered.len() < apart.len()
}

fn latin1(text: &str) -> bool {
    matches!(Text::of(text), Text::Latin1(_))
}

fn longest(text: &str) -> bool {
    text.len() >= LONGEST_NAME && text.encode_utf16().count() == LONGEST_NAME
}

/// In how many descriptions each feature was.
#[derive(Debug, Default)]
pub struct Features {
    lists: [u64; LISTS.len()],
    numbers: [u64; NUMBERS.len()],
    names: [u64; TEXTS.len()],
    imported: [u64; TEXTS.len()],
}

impl Features {
    pub fn add(&mut self, d: &Description) {
        for (n, (_, has)) in self.lists.iter_mut().zip(LISTS) {
            *n += u64::from(has(d));
        }
        for (n, (_, has)) in self.numbers.iter_mut().zip(NUMBERS) {
            *n += u64::from(has(d));
        }
        for (n, (_, has)) in self.names.iter_mut().zip(TEXTS) {
            *n += u64::from(d.texts.iter().any(|text| has(text)));
        }
        for (n, (_, has)) in self.imported.iter_mut().zip(TEXTS) {
            *n += u64::from(d.imported.iter().any(|(text, _)| has(text)));
        }
    }

    fn each(&self) -> impl Iterator<Item = (String, u64)> {
        let whole = LISTS.iter().chain(&NUMBERS).map(|(name, _)| *name);
        let of_text = |what| TEXTS.map(|(name, _)| format!("{what} {name}"));
        let names = whole.map(str::to_owned);
        let names = names
            .chain(of_text("a name,"))
            .chain(of_text("an imported name,"));
        let counts = self.lists.iter().chain(&self.numbers);
        names.zip(counts.chain(&self.names).chain(&self.imported).copied())
    }

    /// Those that never were.
    pub fn missing(&self) -> Vec<String> {
        let never = self.each().filter(|(_, n)| *n == 0);
        never.map(|(name, _)| name).collect()
    }
}

impl fmt::Display for Features {
    fn fmt(&self, f: &mut fmt::Formatter) -> fmt::Result {
        self.each()
            .try_for_each(|(name, n)| writeln!(f, "{name}: {n}"))
    }
}
