//! Layer 2 against the reference, block by block: the refusals, and all that an accepted block holds.
use std::collections::BTreeSet;

use corpus::damage::damage;
use corpus::generate::{Random, dense, generate, spelt};
use corpus::{Export, Package, Text, list};
use oracle::cityhash::hash_package_name;
use oracle::frame::parts;
use oracle::names::{MappedName, read_name_batch};
use oracle::question::question;
use oracle::reader::{Cursor, Error};
use oracle::script::parse_script_objects;
use oracle::zen::{PackageHeader, parse_package_header};
use zen::{NONE, Texts};

/// The number of the question that a message of the reference answers with no.
fn number(error: &Error) -> u64 {
    question(&error.0).expect("a message for a question").into()
}

/// The entries of an accepted script block. The reference keeps them to itself, so they are read again, by its own functions.
fn entries(block: &[u8]) -> Result<Vec<[u64; 4]>, Error> {
    let mut cursor = Cursor::new(block, "script objects");
    read_name_batch(&mut cursor)?;
    let count = cursor.count(32)?;
    let mut entry = || {
        let name = MappedName::read(&mut cursor)?;
        let (global, outer) = (cursor.u64()?, cursor.u64()?);
        cursor.skip(8)?;
        Ok([name.index.into(), name.number.into(), global, outer])
    };
    (0..count).map(|_| entry()).collect()
}

/// What the reference says of a package.
fn header(block: &[u8]) -> Result<PackageHeader, u64> {
    parse_package_header(block).map_err(|error| number(&error))
}

/// Each text with room for it and a little more, and with a byte too little; and none past the last.
fn same_texts(block: &[u8], which: Texts, texts: &[String]) {
    for (i, text) in texts.iter().enumerate() {
        let mut out = vec![0xa5; text.len() + 3];
        assert_eq!(zen::put_name(&mut out, block, which, i), Some(text.len()));
        assert_eq!(out, [text.as_bytes(), &[0xa5; 3]].concat());
        if let Some(short) = text.len().checked_sub(1) {
            let mut out = vec![0xa5; short];
            assert_eq!(zen::put_name(&mut out, block, which, i), None);
            assert!(out.iter().all(|b| *b == 0xa5));
        }
    }
    assert_eq!(zen::put_name(&mut [0; 64], block, which, texts.len()), None);
}

/// All that an accepted package holds, and nothing past the last of each.
fn same_package(block: &[u8], header: &PackageHeader) {
    let imported = &header.imported_package_names;
    let hashes = &header.imported_public_export_hashes;
    let counts = [
        header.names.len(),
        header.exports.len(),
        hashes.len(),
        imported.len(),
    ];
    assert_eq!(zen::counts(block), counts.map(|n| n as u64));
    for (i, export) in header.exports.iter().enumerate() {
        let fields = [
            export.object_name.index.into(),
            export.object_name.number.into(),
            export.outer_index,
            export.class_index,
            export.super_index,
            export.public_export_hash,
        ];
        assert_eq!(zen::export(block, i), fields, "export {i}");
    }
    for (i, hash) in hashes.iter().enumerate() {
        assert_eq!(zen::hash(block, i), *hash, "public hash {i}");
    }
    for (i, name) in imported.iter().enumerate() {
        assert_eq!(zen::imported_id(block, i), hash_package_name(name));
    }
    assert_eq!(zen::export(block, counts[1]), [NONE; 6]);
    assert_eq!(zen::hash(block, counts[2]), NONE);
    assert_eq!(zen::imported_id(block, counts[3]), NONE);
    same_texts(block, Texts::Bases, &header.names);
    same_texts(block, Texts::Imported, imported);
}

/// What was compared: blocks, those that were accepted, and the refusals.
#[derive(Default)]
struct Seen {
    scripts: (u64, u64, BTreeSet<u64>),
    packages: (u64, u64, BTreeSet<u64>),
}

impl Seen {
    fn script(&mut self, block: &[u8]) {
        self.scripts.0 += 1;
        let refusal = parse_script_objects(block).map_or_else(|error| number(&error), |_| 0);
        assert_eq!(zen::check_script(block), refusal, "script {block:02x?}");
        let mut objects = Vec::new();
        if refusal == 0 {
            self.scripts.1 += 1;
            objects = entries(block).expect("read before");
        } else {
            self.scripts.2.insert(refusal);
        }
        for (i, object) in objects.iter().enumerate() {
            assert_eq!(zen::object(block, i), *object, "object {i}");
        }
        assert_eq!(zen::object(block, objects.len()), [NONE; 4]);
    }

    fn package(&mut self, block: &[u8]) {
        self.packages.0 += 1;
        let header = header(block);
        let refusal = header.as_ref().map_or_else(|number| *number, |_| 0);
        assert_eq!(zen::check_package(block), refusal, "package {block:02x?}");
        if let Ok(header) = header {
            self.packages.1 += 1;
            return same_package(block, &header);
        }
        self.packages.2.insert(refusal);
        assert_eq!(zen::counts(block), [NONE; 4]);
        assert_eq!(zen::export(block, 0), [NONE; 6]);
        assert_eq!(zen::hash(block, 0), NONE);
        assert_eq!(zen::imported_id(block, 0), NONE);
        assert_eq!(zen::names_ends(block), NONE);
        same_texts(block, Texts::Bases, &[]);
    }
}

/// Every block of the recorded list whose frame is sound.
fn recorded(seen: &mut Seen) {
    let list = concat!(
        env!("CARGO_MANIFEST_DIR"),
        "/../../crates/replay/data/list.bin"
    );
    let list = std::fs::read(list).expect("the recorded list");
    for case in list::read(&list).expect("a list") {
        if let Ok(parts) = parts(&case.corpus) {
            seen.script(parts.script);
            parts.packages.iter().for_each(|(_, p)| seen.package(p));
        }
    }
}

/// Blocks of accepted corpora, damaged, often near the start, where most is decided; some are cut too.
fn damaged(seen: &mut Seen, blocks: u64) {
    let mut random = Random(4);
    let small = (0..500).map(dense);
    let spelt = (0..200).map(|seed| spelt(seed).bytes());
    let large = (0..10).map(|seed| generate(seed, 5_000));
    let bases: Vec<Vec<u8>> = small.chain(spelt).chain(large).collect();
    for _ in 0..blocks {
        let base = random.pick(&bases);
        let parts = parts(base).expect("sound");
        let script = parts.packages.is_empty() || random.chance(40);
        let block = if script {
            parts.script
        } else {
            random.pick(&parts.packages).1
        };
        let mut block = block.to_vec();
        let end = if random.chance(50) {
            block.len().min(120)
        } else {
            block.len()
        };
        damage(&mut random, &mut block[..end], base);
        if random.chance(5) {
            block.truncate(random.below(block.len() as u64) as usize);
        }
        if script {
            seen.script(&block);
        } else {
            seen.package(&block);
        }
    }
}

#[test]
fn every_block_as_the_reference() {
    let mut seen = Seen::default();
    recorded(&mut seen);
    let (scripts, packages) = (&seen.scripts, &seen.packages);
    println!(
        "recorded: {} script blocks, {} accepted; {} packages, {} accepted",
        scripts.0, scripts.1, packages.0, packages.1
    );
    damaged(&mut seen, 100_000);
    let (scripts, packages) = (&seen.scripts, &seen.packages);
    println!(
        "with 100,000 damaged: {} script blocks, {} accepted; {} packages, {} accepted",
        scripts.0, scripts.1, packages.0, packages.1
    );
    assert!(scripts.1 > 0 && packages.1 > 0, "none was accepted");
    assert_eq!(scripts.2, (3..=13).collect());
    assert_eq!(packages.2, (3..=7).chain([10]).chain(14..=22).collect());
}

/// Where a package's bases end. The reference doesn't say where a text stands, so the package is described.
#[test]
fn ends_of_the_bases() {
    let mut package = Package::default();
    let texts = ["", "a", "Ünï", "a wide one"];
    package.names.extend(texts.map(Text::of));
    package.names.extend(texts.map(Text::wide));
    package
        .names
        .extend((0..600).map(|i| Text::of(&format!("{i}"))));
    let names = package.names.len();
    package.exports.extend((0..2_000).map(|i| Export {
        name: i * 5 % names as u32,
        number: i,
        outer: 0,
        class: 0,
        super_index: 0,
        hash: 0,
    }));
    // Summary; count, bytes of strings and version; hashes and headers.
    let mut at = 52 + 16 + 10 * names;
    let mut ends = Vec::new();
    for text in &package.names {
        at += match text {
            Text::Latin1(bytes) => bytes.len(),
            Text::Utf16(units) => 2 * units.len(),
        };
        ends.push(at as u64);
    }
    let sum: u64 = package.exports.iter().map(|e| ends[e.name as usize]).sum();
    assert_eq!(zen::names_ends(&package.bytes()), sum);
}
