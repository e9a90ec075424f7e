//! Small corpora with the hashes of their names: script objects by the hashes of their paths and packages by the ids of
//! their names, right, nearly right and wrong.
use super::Random;
use super::dense_described;
use super::names::{ODD, WIDE, words};
use super::spelling::mistaken;
use super::spelt::{name, spelt};
use crate::name::{id, path_index, rendered};
use crate::{Described, NULL, ObjectPath, ScriptEntry, Text, script_index};

/// A corpus of `dense` or `spelt` with other names, more objects, and hashes of which some are wrong; or all, or none.
pub fn hashed(seed: u64) -> Described {
    let mut random = Random(seed ^ 0x4a5_4ed0);
    let mut corpus = match random.below(5) {
        0 => spelt(seed),
        _ => dense_described(seed),
    };
    rename(&mut corpus, &mut random);
    grow(&mut corpus, &mut random);
    let right = *random.pick(&[100, 90, 50, 0]);
    corpus.index_objects(|path| index(&mut random, right, path));
    corpus.name_packages(|old, base, number| package_id(&mut random, right, old, base, number));
    let order = random.order(corpus.entries.len());
    corpus.entries = order.iter().map(|i| corpus.entries[*i]).collect();
    corpus
}

/// Other texts for some of the script objects' names; the first is often what makes classes.
fn rename(corpus: &mut Described, random: &mut Random) {
    for (i, text) in corpus.names.iter_mut().enumerate() {
        if random.chance(if i == 0 { 20 } else { 60 }) {
            *text = other_text(random);
        }
    }
}

/// A name with separators in it, of any letters, or as long as it takes to be hashed in several blocks.
fn other_text(random: &mut Random) -> Text {
    let text = match random.below(5) {
        0 => (*random.pick(&ODD)).to_owned(),
        1 => (*random.pick(&WIDE)).to_owned(),
        2 => {
            let many = random.below(12);
            words(random, many)
        }
        _ => name(random).name,
    };
    if random.chance(20) {
        Text::wide(&text)
    } else {
        Text::of(&text)
    }
}

/// More script objects in some corpora, each below one that is there.
fn grow(corpus: &mut Described, random: &mut Random) {
    if corpus.names.is_empty() || random.chance(60) {
        return;
    }
    for i in 0..random.below(66) {
        let outer = if random.chance(20) {
            NULL
        } else {
            random.pick(&corpus.entries).global
        };
        corpus.entries.push(ScriptEntry {
            name: random.below(corpus.names.len() as u64) as u32,
            number: random.below(40) as u32,
            global: script_index(1_000 + i),
            outer,
        });
    }
}

/// The index of an object, right in so many cases of a hundred.
fn index(random: &mut Random, right: u64, path: &ObjectPath) -> u64 {
    let text = path.text();
    let whole = path_index(&text);
    if random.chance(right) {
        return whole;
    }
    let low = |hash: u64| script_index(hash % (1 << 62));
    match random.below(11) {
        0 | 1 => whole ^ 1 << random.below(62),
        2 => low(id(&text)),
        3 => low(id(&text.replace('.', "/"))),
        4 => low(id(&text.replace(':', "/"))),
        5 => low(as_spelt(&text.replace(['.', ':'], "/"))),
        6 => low(cityhasher::hash(
            text.replace(['.', ':'], "/").to_lowercase(),
        )),
        7 => path_index(&mistaken(&text).unwrap_or_default()),
        8 => path_index(&path.names[path.names.len() - 1]),
        9 => {
            let without = &path.names[..path.names.len() - 1];
            path_index(
                &[without, std::slice::from_ref(&path.base)]
                    .concat()
                    .join("."),
            )
        }
        _ => script_index(random.next() >> 2),
    }
}

/// The id of a package, right in so many cases of a hundred.
fn package_id(random: &mut Random, right: u64, old: u64, base: &str, number: u32) -> u64 {
    let whole = rendered(base, number);
    let own = id(&whole);
    if random.chance(right) {
        return own;
    }
    match random.below(8) {
        0 | 1 => own ^ 1 << random.below(64),
        2 => own ^ (1 + random.below(3)) << 62,
        3 => id(base),
        4 => as_spelt(&whole),
        5 => path_index(&whole),
        _ => old,
    }
}

/// The hash of a name that isn't lowered.
fn as_spelt(text: &str) -> u64 {
    let units: Vec<[u8; 2]> = text.encode_utf16().map(u16::to_le_bytes).collect();
    cityhasher::hash(units.as_flattened())
}
