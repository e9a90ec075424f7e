//! Layer 1 against Rust's own text and the stand-in's CityHash64.
use std::sync::LazyLock;

use corpus::generate::Random;
use corpus::name;
use text::{city_hash64, name_id, put_name};

fn bytes(r: &mut Random, n: usize) -> Vec<u8> {
    (0..n).map(|_| r.next() as u8).collect()
}

#[test]
fn city_hash_of_every_length() {
    let mut r = Random(1);
    let long = bytes(&mut r, 1_100);
    for n in 0..=1_100 {
        let s = bytes(&mut r, n);
        assert_eq!(city_hash64(&s), cityhasher::hash(&s), "{n} random bytes");
        assert_eq!(
            city_hash64(&long[1_100 - n..]),
            cityhasher::hash(&long[1_100 - n..])
        );
    }
    for n in [99_999, 100_000, 100_001, 131_072, 200_063, 200_064, 200_065] {
        let s = bytes(&mut r, n);
        assert_eq!(city_hash64(&s), cityhasher::hash(&s), "{n} random bytes");
    }
}

/// Every character that lowering changes, and those that it makes.
static LETTERS: LazyLock<Vec<u32>> = LazyLock::new(|| {
    let both = name::pairs().flat_map(|(capital, small)| [capital, small]);
    both.map(u32::from).collect()
});

/// A part of a block: mostly letters, some of Latin-1 above 0x7F, wide ones with surrogates that mostly pair.
fn part(r: &mut Random, units: usize, wide: bool) -> Vec<u8> {
    let mut out = Vec::new();
    while out.len() < units * if wide { 2 } else { 1 } {
        let c: u32 = match r.below(12) {
            0..3 => *r.pick(&LETTERS),
            3..6 => u32::from(b'A') + r.below(26) as u32,
            6..9 => u32::from(b'a') + r.below(26) as u32,
            9 => r.below(256) as u32,
            10 => *r.pick(&[
                0x7f, 0x80, 0x7ff, 0x800, 0xd7ff, 0xe000, 0xfeff, 0xffff, 0x1_0000, 0x10_ffff,
            ]),
            _ => r.below(0x11_0000) as u32,
        };
        if !wide {
            out.push(c as u8);
        } else if r.chance(1) && units > 40 {
            out.extend((0xd800 + r.below(0x800) as u16).to_le_bytes());
        } else if let Some(c) = char::from_u32(c) {
            let mut two = [0; 2];
            for u in c.encode_utf16(&mut two) {
                out.extend(u.to_le_bytes());
            }
        }
    }
    out
}

fn number(r: &mut Random) -> u32 {
    match r.below(4) {
        0 => 0,
        1 => 1 + r.below(200) as u32,
        2 => *r.pick(&[
            1,
            10,
            11,
            100,
            101,
            1_000_000_000,
            1_000_000_001,
            0x8000_0000,
            u32::MAX,
        ]),
        _ => r.next() as u32,
    }
}

/// Ids, UTF-8 and suffixes of one name; whether it was a text.
fn same(part: &[u8], wide: bool, number: u32) -> bool {
    let mut out = vec![0xa5; 3 * part.len() + 16];
    let Some(base) = name::decoded(part, wide) else {
        assert_eq!(put_name(&mut out, part, wide, number), None);
        assert!(out.iter().all(|b| *b == 0xa5));
        assert_eq!(name_id(part, wide, number), 0);
        return false;
    };
    let text = name::rendered(&base, number);
    assert_eq!(name_id(part, wide, number), name::id(&text), "{text:?}");
    let n = put_name(&mut out, part, wide, number).expect("there is room");
    assert_eq!(&out[..n], text.as_bytes());
    assert!(out[n..].iter().all(|b| *b == 0xa5));
    out.fill(0x5a);
    assert_eq!(put_name(&mut out[..n], part, wide, number), Some(n));
    if n > 0 {
        out.fill(0x5a);
        assert_eq!(put_name(&mut out[..n - 1], part, wide, number), None);
        assert!(out.iter().all(|b| *b == 0x5a));
    }
    true
}

#[test]
fn names() {
    let mut r = Random(2);
    let (mut texts, mut ill, mut pairs) = (0, 0, 0);
    for i in 0..100_000u64 {
        let wide = r.chance(50);
        let units = match i % 1_000 {
            0 => 32_767,
            1..20 => r.below(2_000) as usize,
            _ => r.below(70) as usize,
        };
        let p = part(&mut r, units, wide);
        if same(&p, wide, number(&mut r)) {
            texts += 1;
            pairs += u64::from(wide && p.chunks_exact(2).any(|u| (0xd8..0xdc).contains(&u[1])));
        } else {
            ill += 1;
        }
    }
    println!("{texts} texts, {pairs} of them with surrogate pairs; {ill} ill-formed");
    assert!(texts > 50_000 && ill > 100 && pairs > 1_000);
}

/// Names of every length up to 40 units with numbers of every count of digits: where the hash goes another way, one of them is.
#[test]
fn short_names() {
    let mut r = Random(3);
    let powers = (0..10).flat_map(|digits| [10u32.pow(digits), 10u32.pow(digits) + 1]);
    let numbers: Vec<u32> = [0, u32::MAX].into_iter().chain(powers).collect();
    for units in 0..=40 {
        for &number in &numbers {
            for wide in [false, true] {
                let p = part(&mut r, units, wide);
                assert!(same(&p, wide, number), "{p:?}");
            }
        }
    }
}

/// Every way in which two units can be surrogates or not, alone, at the start, and at the end.
#[test]
fn surrogates() {
    let edges = [
        0x0041, 0xd7ff, 0xd800, 0xdbff, 0xdc00, 0xdfff, 0xe000, 0xffff,
    ];
    for a in edges {
        same(&u16::to_le_bytes(a), true, 0);
        for b in edges {
            for c in edges {
                let p: Vec<u8> = [a, b, c]
                    .iter()
                    .flat_map(|u: &u16| u.to_le_bytes())
                    .collect();
                same(&p, true, 0);
                same(&p[..4], true, 1);
            }
        }
    }
}

/// Each one-byte text of one character: Latin-1 and not Windows-1252.
#[test]
fn latin1() {
    for b in 0..=255u8 {
        assert!(same(&[b], false, 0));
        let mut out = [0; 2];
        let n = put_name(&mut out, &[b], false, 0).unwrap();
        assert_eq!(
            std::str::from_utf8(&out[..n])
                .unwrap()
                .chars()
                .collect::<Vec<_>>(),
            [b as char]
        );
    }
}
