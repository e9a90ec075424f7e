//! The lowering of a character against Rust's own mappings.
use text::lower;

/// `char::to_lowercase` where it is one character, else the character itself.
fn one_to_one(c: char) -> char {
    let all: Vec<char> = c.to_lowercase().collect();
    match all[..] {
        [low] => low,
        _ => c,
    }
}

#[test]
fn every_scalar_value() {
    let mut changed = 0;
    let mut values = 0;
    for c in '\0'..=char::MAX {
        let low = one_to_one(c);
        assert_eq!(lower(c.into()), low.into(), "U+{:04X}", u32::from(c));
        assert_eq!(lower(low.into()), low.into(), "U+{:04X}", u32::from(low));
        values += 1;
        changed += u64::from(c != low);
    }
    println!("{values} scalar values, {changed} of them changed");
    assert_eq!((values, changed), (1_112_064, 1_487));
}

/// Surrogates, and numbers above all characters, also where their low bits are those of a capital.
#[test]
fn every_other_number_stays() {
    let surrogates = 0xd800..=0xdfff;
    let above = 0x11_0000..0x24_0000;
    let capitals = ('\0'..=char::MAX).filter(|c| one_to_one(*c) != *c);
    let bits = capitals.flat_map(|c| (21..32).map(move |bit| u32::from(c) | 1 << bit));
    for n in surrogates.chain(above).chain(bits).chain([u32::MAX]) {
        assert_eq!(lower(n), n, "{n:#x}");
    }
}
