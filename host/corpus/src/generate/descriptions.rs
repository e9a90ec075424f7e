//! Descriptions of headers: random ones in which everything meets, and those at an edge.
use super::Random;
use super::names::{ODD, WIDE, words};
use crate::{Description, Export, import_index, script_index};

/// The most units that a name can have.
pub const LONGEST_NAME: usize = 32_767;

/// The ends of ranges: of ASCII, Latin-1, what UTF-8 writes in two, three and four bytes, and the surrogates.
#[rustfmt::skip]
const ENDS: [char; 14] = [
    '\0', '\u{7f}', '\u{80}', '\u{ff}', '\u{100}', '\u{7ff}', '\u{800}', '\u{d7ff}', '\u{e000}', '\u{feff}', '\u{fffe}',
    '\u{ffff}', '\u{10000}', char::MAX,
];

/// Names that are rendered alike with some number or other.
const ALIKE: [(&str, u32); 6] = [
    ("A", 2),
    ("A_1", 0),
    ("A_0", 0),
    ("A", 1),
    ("", 1),
    ("_0", 0),
];

/// A description that can be written.
pub fn description(seed: u64) -> Description {
    let random = &mut Random(seed.wrapping_mul(0x9fb2_1c65_1e98_df25) ^ 0xde5c);
    let texts = texts(random);
    let count = texts.len() as u64;
    let exports = (0..many(random)).map(|_| export(random, count)).collect();
    let hashes = (0..many(random)).map(|_| index(random)).collect();
    let mut imported: Vec<(String, u32)> = Vec::new();
    for _ in 0..many(random) {
        let next = match random.below(10) {
            0 if !imported.is_empty() => random.pick(&imported).clone(),
            1 => (random.pick(&texts).clone(), number(random)),
            2 => random.pick(&ALIKE.map(|(t, n)| (t.to_owned(), n))).clone(),
            _ => (text(random), number(random)),
        };
        imported.push(next);
    }
    Description {
        name: (name(random, count), number(random)),
        texts,
        exports,
        hashes,
        imported,
    }
}

/// How many entries a list has: often none or few.
fn many(random: &mut Random) -> u64 {
    let most = *random.pick(&[1, 2, 4, 4, 8, 8, 30]);
    random.below(most)
}

fn texts(random: &mut Random) -> Vec<String> {
    let mut texts = vec![text(random)];
    for _ in 0..many(random) {
        let next = match random.below(10) {
            0 => random.pick(&texts).clone(),
            _ => text(random),
        };
        texts.push(next);
    }
    texts
}

fn text(random: &mut Random) -> String {
    let most = *random.pick(&[3, 10, 20, 20, 70, 300]);
    let length = 1 + random.below(most) as usize;
    if random.below(1_500) == 0 {
        return long(random);
    }
    match random.below(300) {
        0..25 => String::new(),
        25..75 => (*random.pick(&ODD)).to_owned(),
        75..125 => words(random, 1 + length as u64 % 4),
        125..150 => (*random.pick(&WIDE)).to_owned(),
        150..200 => of(random, length, |r| char::from(r.next() as u8)),
        200..225 => of(random, length, |r| scalar(r.below(0x1000) as u32)),
        225..250 => of(random, length, |r| scalar(r.below(0x11_0000) as u32)),
        250..275 => of(random, length, |r| *r.pick(&ENDS)),
        _ => of(random, length, |r| *r.pick(&['a', 'é', 'Œ', '音', '🎯'])),
    }
}

fn of(random: &mut Random, length: usize, character: fn(&mut Random) -> char) -> String {
    (0..length).map(|_| character(random)).collect()
}

/// A character by its number; U+FFFD for a surrogate.
fn scalar(number: u32) -> char {
    char::from_u32(number).unwrap_or(char::REPLACEMENT_CHARACTER)
}

/// One of the longest names, or one of a unit or two less.
fn long(random: &mut Random) -> String {
    let units = LONGEST_NAME - random.below(3) as usize;
    let word = random.pick(&["x", "y\u{ff}", "z\u{100}", "🎯", "🎯é"]);
    filled(word, units)
}

/// A name of exactly so many units: a word over and over, and where a pair doesn't fit an `s`.
pub fn filled(word: &str, units: usize) -> String {
    let mut out = String::new();
    let mut left = units;
    for c in word.chars().cycle() {
        if c.len_utf16() > left {
            break;
        }
        out.push(c);
        left -= c.len_utf16();
    }
    out + &"s".repeat(left)
}

/// A text number among so many, often the first or the last.
fn name(random: &mut Random, count: u64) -> u32 {
    let any = random.below(count);
    *random.pick(&[0, count - 1, any, any]) as u32
}

fn number(random: &mut Random) -> u32 {
    let any = random.next() as u32;
    *random.pick(&[0, 0, 1, 2, u32::MAX, any])
}

/// Any 64 bits, often such that mean something.
fn index(random: &mut Random) -> u64 {
    let any = random.next();
    let few = any >> 61;
    *random.pick(&[
        0,
        few,
        u64::MAX,
        script_index(few),
        import_index(few as u32, 1),
        any,
    ])
}

fn export(random: &mut Random, texts: u64) -> Export {
    Export {
        name: name(random, texts),
        number: number(random),
        outer: index(random),
        class: index(random),
        super_index: index(random),
        hash: index(random),
    }
}

/// Descriptions at an edge, each with its name; all can be written.
pub fn description_edges() -> Vec<(String, Description)> {
    let mut out = vec![("the least".to_owned(), named(String::new()))];
    for word in ["a", "é", "Œ", "🎯", "🎯Œ"] {
        let text = filled(word, LONGEST_NAME);
        out.push((format!("the longest name of {word}"), named(text.clone())));
        let mut imported = named(String::new());
        imported.imported = vec![(text, 7)];
        out.push((format!("the longest imported name of {word}"), imported));
    }
    let (every, many) = (every_character(), many_of_all(70_000));
    out.push(("every character a name".to_owned(), every));
    out.push(("70,000 of all".to_owned(), many));
    out
}

/// A package of one name.
fn named(text: String) -> Description {
    Description {
        texts: vec![text],
        ..Description::default()
    }
}

/// Each character a name and an imported name of its own.
fn every_character() -> Description {
    let all = ('\0'..=char::MAX).map(String::from);
    let imported = ('\u{ff00}'..='\u{100ff}').map(|c| (c.into(), c.into()));
    Description {
        texts: all.collect(),
        imported: imported.collect(),
        ..Description::default()
    }
}

fn many_of_all(n: u32) -> Description {
    let mut random = Random(u64::from(n));
    let text = |i: u32| match i % 8 {
        0 => String::new(),
        1 => format!("Tönung{i}"),
        2 => format!("音声{i}"),
        _ => format!("Name{i}"),
    };
    Description {
        name: (n - 1, 1),
        texts: (0..n).map(text).collect(),
        exports: (0..n).map(|_| export(&mut random, n.into())).collect(),
        hashes: (0..n).map(|_| random.next()).collect(),
        imported: (0..n).map(|i| (text(i + 1), i)).collect(),
    }
}
