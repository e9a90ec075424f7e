//! Headers written out.
use corpus::{Description, Export};

use crate::asked::Asked;

/// Numbers of 4 bytes, little-endian.
fn words(numbers: &[u32]) -> Vec<u8> {
    let words: Vec<[u8; 4]> = numbers.iter().map(|n| n.to_le_bytes()).collect();
    words.as_flattened().to_vec()
}

fn header(description: &[u8]) -> Vec<u8> {
    Asked::new(6).ask(description).expect("it can be written")
}

/// Document 01's package: all offsets 87, a header of 91 bytes.
#[test]
fn named_a() {
    #[rustfmt::skip]
    let description = [
        0, 0, 0, 30, 1, 0, 0, 0, 0, 0, 0, 0, 0,
        0, 0, 0, 1, 0, 0, 0, 1, b'A', 0, 0, 0, 0, 0, 0, 0, 0, 0, 0, 0, 0,
    ];
    let mut expected = words(&[0, 91, 0, 0, 0, 0, 87, 87, 87, 87, 87, 87, 87]);
    expected.extend(words(&[1, 1, 0xC164_0000, 0, 0, 0]));
    expected.extend([0, 1, b'A']);
    expected.extend([0; 8 + 4]);
    assert_eq!(header(&description), expected);
}

/// An empty name: the least header there is.
#[test]
fn the_least() {
    let mut description = vec![0; 33];
    (description[3], description[4], description[16]) = (29, 1, 1);
    let mut expected = words(&[0, 90, 0, 0, 0, 0, 86, 86, 86, 86, 86, 86, 86]);
    expected.extend(words(&[1, 0, 0xC164_0000, 0, 0, 0]));
    expected.extend([0; 2 + 8 + 4]);
    assert_eq!(header(&description), expected);
}

/// One of each, a wide name at an odd place.
#[test]
fn one_of_each() {
    let description = Description {
        name: (1, 2),
        texts: ["É", "Œ🎯"].map(str::to_owned).into(),
        exports: vec![Export {
            name: 1,
            number: 3,
            outer: 0x1817_1615_1413_1211,
            class: 0x2827_2625_2423_2221,
            super_index: 0x3837_3635_3433_3231,
            hash: 0x4847_4645_4443_4241,
        }],
        hashes: vec![0x5857_5655_5453_5251],
        imported: vec![("/ÿ".to_owned(), 7)],
    };
    let mut expected = words(&[0, 215, 1, 2, 0, 0, 103, 111, 111, 183, 183, 183, 183]);
    expected.extend(words(&[2, 7, 0xC164_0000, 0, 0, 0, 0, 0]));
    expected.extend([0, 1, 0x80, 3, 0xc9, 0x52, 0x01, 0x3c, 0xd8, 0xaf, 0xdf]);
    expected.extend([0; 8]);
    expected.extend(0x51..0x59);
    expected.extend([0; 16]);
    expected.extend(words(&[1, 3]));
    expected.extend((0x11..0x19).chain(0x21..0x29).chain(0x31..0x39));
    expected.extend([0; 8]);
    expected.extend(0x41..0x49);
    expected.extend([0; 8]);
    expected.extend(words(&[1, 2, 0xC164_0000, 0, 0, 0]));
    expected.extend([0, 2, b'/', 0xff, 7, 0, 0, 0]);
    assert_eq!(header(&description.bytes()), expected);
}
