//! Names beyond ASCII, and the spellings of a name: texts that differ and have one id.
use super::Random;
use crate::Text;
use crate::name::{lower, pairs};
use std::collections::BTreeMap;
use std::sync::LazyLock;

/// What a package's name may have beyond ASCII: Latin-1; wide text; surrogate pairs, one of which has no capital.
#[rustfmt::skip]
pub const ACCENTED: [&str; 12] = [
    "école_à_côté", "straße", "ångström", "ÿ", "kår×µ",
    "œuvre_ωμέγα", "дверь", "İzmir_άλλος", "ǅeǆaǆi", "ⅷ_ａｂ_ა_ꭰ",
    "𐐨𐐩𐓘", "𑣀é𞤢🎯ž",
];

/// The characters that are lowered to one that is no capital, and that one itself, in rising order.
static ALIKE: LazyLock<BTreeMap<char, Vec<char>>> = LazyLock::new(|| {
    let mut alike: BTreeMap<char, Vec<char>> = BTreeMap::new();
    for (capital, small) in pairs() {
        alike.entry(small).or_insert(vec![small]).push(capital);
    }
    for all in alike.values_mut() {
        all.sort_unstable();
    }
    alike
});

/// The name with each character turned to one of those that are lowered alike.
fn turned(name: &str, mut of: impl FnMut(&[char]) -> char) -> String {
    let turn = |c| ALIKE.get(&lower(c)).map_or(c, |all| of(all));
    name.chars().map(turn).collect()
}

/// The name in capitals; of several for one letter the first, so that Latin-1 stays Latin-1 where it can.
pub fn capitals(name: &str) -> String {
    turned(name, |all| {
        let capital = all.iter().find(|c| lower(**c) != **c);
        *capital.expect("a letter with a capital")
    })
}

/// The name with each letter as chance has it: U+212A for a k, U+01C5 for U+01C6.
pub fn mixed(random: &mut Random, name: &str) -> String {
    turned(name, |all| *random.pick(all))
}

/// A name beyond ASCII as a package may write it.
pub fn spelled(random: &mut Random, name: &str) -> Text {
    let spelled = match random.below(4) {
        0 => name.to_owned(),
        1 => name.chars().map(lower).collect(),
        2 => capitals(name),
        _ => mixed(random, name),
    };
    if random.chance(30) {
        Text::wide(&spelled)
    } else {
        Text::of(&spelled)
    }
}

/// Letters that are not lowered to one another, though a careless reader could think so.
const APART: [[char; 2]; 2] = [['\u{130}', 'i'], ['ς', 'σ']];

/// The name with such letters exchanged, which makes it another; or None where it has none of them.
pub fn mistaken(name: &str) -> Option<String> {
    let other = |c| match APART.iter().find(|two| two[0] == c) {
        Some([_, mistaken]) => *mistaken,
        None => c,
    };
    let other: String = name.chars().map(other).collect();
    (other != name).then_some(other)
}
