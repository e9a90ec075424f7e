//! Headers: what is written is read again, to the last bit, and what can't be written is refused.
#[path = "cli/descriptions.rs"]
mod descriptions;

use std::fs;

use classreport::chain::{Described, LeftOut, described};
use classreport::{CorpusBuilder, Description, Export, ImportedName, LONGEST_HEADER, Name};
use classreport::{header, header_into, verify};
use corpus::Package;
use corpus::generate::dense_described;

use descriptions::random;

/// What the call says of a header in a corpus, by the number of the question that fails.
fn asked(header: &[u8]) -> Option<u8> {
    let mut corpus = CorpusBuilder::new(&[0; 8]).expect("short");
    corpus.add(0, header).expect("short");
    verify(&corpus.finish())
        .err()
        .map(|refusal| refusal.question)
}

fn named(text: &str) -> Description {
    Description {
        texts: vec![text.to_owned()],
        ..Description::default()
    }
}

#[test]
fn what_is_written_is_read_again() {
    for seed in 0..3_000 {
        let description = random(seed);
        let written = header(&description).expect("accepted");
        assert_eq!(asked(&written), None, "seed {seed}");
        let read = described(&written).expect("readable");
        assert_eq!(read.description, description, "seed {seed}");
        assert_eq!(read.left_out, LeftOut::default(), "seed {seed}");
    }
}

#[test]
fn lent_buffers() {
    for seed in 3_000..3_500 {
        let description = random(seed);
        let (bytes, whole) = (description.bytes().unwrap(), header(&description).unwrap());
        let mut out = vec![7; whole.len() + 1];
        let short = header_into(&bytes, &mut out[1..whole.len()]).unwrap_err();
        assert_eq!((short.question, short.block), (28, 0));
        let cut = header_into(&bytes[1..], &mut out).unwrap_err();
        assert_eq!((cut.question, cut.block), (27, 0));
        assert!(out.iter().all(|byte| *byte == 7), "left as it was");
        assert_eq!(header_into(&bytes, &mut out), Ok(&*whole));
        assert_eq!(out[whole.len()], 7, "left as it was");
    }
}

/// Text numbers outside the list, names of a unit too many.
#[test]
fn what_can_not_be_written() {
    let refused = |description: &Description| header(description).unwrap_err().to_string();
    let told = "refused 27 (block 0, the description): the description is malformed, or its header can't be written";
    assert_eq!(refused(&Description::default()), told);
    let outside = Name { text: 1, number: 0 };
    let mut other = named("A");
    other.name = outside;
    assert_eq!(refused(&other), told);
    let mut other = named("A");
    other.exports = vec![Export {
        name: outside,
        ..Export::default()
    }];
    assert_eq!(refused(&other), told);
    for (letter, most) in [("a", 32_767), ("é", 32_767), ("♪", 32_767), ("🎵", 16_383)] {
        let longest = letter.repeat(most);
        let longer = format!("{longest}{letter}");
        assert_eq!(
            described(&header(&named(&longest)).unwrap())
                .unwrap()
                .description,
            named(&longest)
        );
        assert_eq!(refused(&named(&longer)), told);
        let mut importing = named("A");
        importing.imported = vec![ImportedName {
            text: longest,
            number: 0,
        }];
        assert!(header(&importing).is_ok());
        importing.imported[0].text = longer;
        assert_eq!(refused(&importing), told);
    }
}

/// Where three times the description's length is nearest to what is needed.
#[test]
fn room_is_always_enough() {
    let mut some = named("");
    for description in [
        named(""),
        named("♪a"),
        named(&format!("♪{}", "a".repeat(999))),
    ] {
        let room = 3 * description.bytes().unwrap().len();
        assert!(header(&description).unwrap().len() <= room);
    }
    for count in 1..20 {
        some.imported.push(ImportedName::default());
        some.exports.push(Export::default());
        some.texts.push(String::new());
        assert!(header(&some).is_ok(), "{count}");
    }
}

/// A generated package by what a description has of it.
fn description(package: &Package) -> Description {
    // The top two bits of a mapped name are passed over.
    let name = |(text, number): (u32, u32)| Name {
        text: text << 2 >> 2,
        number,
    };
    let export = |export: &corpus::Export| Export {
        name: name((export.name, export.number)),
        outer: export.outer,
        class: export.class,
        super_index: export.super_index,
        hash: export.hash,
    };
    let imported = |(text, number): &(corpus::Text, u32)| ImportedName {
        text: text.text(),
        number: *number,
    };
    Description {
        name: name(package.name),
        texts: package.names.iter().map(corpus::Text::text).collect(),
        exports: package.exports.iter().map(export).collect(),
        hashes: package.hashes.clone(),
        imported: package.imported.iter().map(imported).collect(),
    }
}

/// Headers as an engine writes them, with all that is left out.
#[test]
fn other_headers_are_described() {
    let mut counts = [0; 4];
    for seed in 0..2_000 {
        for (_, package) in dense_described(seed).packages {
            let block = package.bytes();
            if asked(&block).is_some() {
                continue;
            }
            let read = described(&block).expect("readable");
            let left_out = LeftOut {
                bulk: package.bulk.len(),
                imports: package.imports.len(),
                bundles: package.skipped.iter().map(Vec::len).sum(),
                behind: package.tail.len(),
                values: true,
            };
            assert_eq!(read.left_out, left_out, "seed {seed}");
            assert!(read.description == description(&package), "seed {seed}");
            let again = described(&header(&read.description).unwrap()).unwrap();
            let left_out = LeftOut::default();
            let description = read.description;
            assert_eq!(
                again,
                Described {
                    description,
                    left_out
                }
            );
            let some =
                [package.bulk, package.skipped.concat(), package.tail].map(|part| part.len());
            for (count, there) in counts.iter_mut().zip(some.into_iter().chain([1])) {
                *count += usize::from(there > 0);
            }
        }
    }
    println!("packages with bulk data, bundles, bytes behind, and all: {counts:?}");
    assert!(counts.iter().all(|count| *count > 500), "{counts:?}");
}

/// A byte that a description has no place for is seen, wherever it stands; one that it has makes another description.
#[test]
fn each_byte_counts() {
    let mut tone = random(5);
    tone.exports = vec![Export::default(); 2];
    tone.imported = vec![ImportedName::default()];
    let whole = header(&tone).unwrap();
    let mut seen = [0, 0];
    for place in 0..whole.len() {
        let mut other = whole.clone();
        other[place] ^= 1;
        let read = described(&other);
        if asked(&other).is_some() {
            continue;
        }
        let Described {
            description,
            left_out,
        } = read.expect("readable");
        assert_ne!(description != tone, left_out.values, "byte {place}");
        seen[usize::from(left_out.values)] += 1;
    }
    println!("{seen:?} of {} bytes", whole.len());
    assert!(seen.iter().all(|count| *count > 20), "{seen:?}");
}

/// Whatever the bytes are, reading them ends.
#[test]
fn anything_may_be_read() {
    let whole = dense_described(9).packages[0].1.bytes();
    for length in 0..whole.len() {
        assert!(described(&whole[..length]).is_err() || length > 90);
    }
    for place in 0..whole.len() {
        for change in [1, 0x40, 0x80, 0xff] {
            let mut other = whole.clone();
            other[place] ^= change;
            let accepted = asked(&other).is_none();
            assert!(described(&other).is_ok() || !accepted, "byte {place}");
        }
    }
}

/// The longest header that there can be, and one of a byte more.
#[test]
fn the_longest_header() {
    let memory = fs::read_to_string("/proc/meminfo").unwrap_or_default();
    let kilobytes = memory.split_whitespace().nth(1);
    let kilobytes = kilobytes.and_then(|word| word.parse::<u64>().ok());
    if kilobytes.is_none_or(|kilobytes| kilobytes < 8_000_000) {
        println!("less than 8 GB of memory: a header of 2 GB is not asked for");
        return;
    }
    let exports = (LONGEST_HEADER - 90) / 72;
    let rest = (LONGEST_HEADER - 90) % 72;
    let mut longest = named(&"a".repeat(rest as usize));
    longest.exports = vec![Export::default(); exports as usize];
    let written = header(&longest).expect("accepted");
    assert_eq!(written.len() as u64, LONGEST_HEADER);
    assert_eq!(written[4..8], [0xff, 0xff, 0xff, 0x7f]);
    drop(written);
    longest.texts[0].push('a');
    let refusal = header(&longest).unwrap_err();
    assert_eq!((refusal.question, refusal.block), (27, 0));
}
