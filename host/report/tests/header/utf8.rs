//! Texts of every first two bytes: what is UTF-8 is written, all else is 27.
use corpus::draft::{DescriptionDraft, TextDraft};

/// One of each kind of byte: ASCII, tail bytes at the ends of the ranges that the second byte can have, first bytes.
const KINDS: [u8; 12] = [
    0x00, 0x41, 0x7f, 0x80, 0x8f, 0x90, 0x9f, 0xa0, 0xbf, 0xc2, 0xe1, 0xff,
];

/// A package whose only name has these bytes.
fn named(bytes: &[u8]) -> Vec<u8> {
    let draft = DescriptionDraft {
        version: 1,
        texts: vec![TextDraft {
            length: None,
            bytes: bytes.to_vec(),
        }],
        ..DescriptionDraft::default()
    };
    draft.bytes()
}

/// How many texts were written and how many refused.
#[derive(Default)]
struct Told {
    written: u64,
    refused: u64,
}

impl Told {
    fn ask(&mut self, bytes: &[u8]) {
        let description = named(bytes);
        let header = &mut [0xa5; 300];
        let number = report::class_header(&description, header);
        let expected = model::class_header(&description, header.len() as u64);
        assert_eq!(number, answer::number(&expected), "{bytes:02x?}");
        let count = match &expected {
            Ok(_) => &mut self.written,
            Err(_) => &mut self.refused,
        };
        *count += 1;
        let written = expected.unwrap_or_default();
        let (front, rest) = header.split_at(written.len());
        assert!(front == written, "{bytes:02x?}");
        assert!(rest.iter().all(|byte| *byte == 0xa5), "{bytes:02x?}");
    }
}

#[test]
fn up_to_two_bytes() {
    let mut told = Told::default();
    told.ask(&[]);
    for first in 0..=255 {
        told.ask(&[first]);
        (0..=255).for_each(|second| told.ask(&[first, second]));
    }
    println!("{} texts written, {} refused", told.written, told.refused);
    // ASCII, and two bytes for U+0080 to U+07FF
    assert_eq!(told.written, 1 + 128 + 128 * 128 + 0x780);
}

/// Every first and second byte, and then each kind of byte.
#[test]
fn three_and_four_bytes() {
    let mut told = Told::default();
    for first in 0xc0..=255 {
        for second in 0..=255 {
            for third in KINDS {
                told.ask(&[first, second, third]);
                for fourth in KINDS {
                    told.ask(&[first, second, third, fourth]);
                }
            }
        }
    }
    println!("{} texts written, {} refused", told.written, told.refused);
    assert!(told.written > 10_000 && told.refused > 1_000_000);
}

/// The same where the code goes over several bytes at once: behind so many letters.
#[test]
fn behind_letters() {
    let mut told = Told::default();
    for letters in 0..40 {
        for (_, bytes) in corpus::damage::ILL_FORMED {
            for behind in 0..20 {
                let text = [&b"a".repeat(letters), bytes, &b"b".repeat(behind)].concat();
                told.ask(&text);
            }
        }
        for c in ['\0', 'é', '\u{ff}', 'Œ', '音', '🎯', char::MAX] {
            for behind in 0..20 {
                let text = [
                    &b"a".repeat(letters),
                    c.to_string().as_bytes(),
                    &b"b".repeat(behind),
                ]
                .concat();
                told.ask(&text);
            }
        }
    }
    println!("{} texts written, {} refused", told.written, told.refused);
    assert!(told.written >= 40 * 7 * 20 && told.refused >= 40 * 37 * 20);
}
