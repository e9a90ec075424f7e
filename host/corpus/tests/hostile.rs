//! Hostile shapes are what their names say.
use corpus::census::{Census, census};
use corpus::decode::{Corpus, decode};
use corpus::generate::heavy;
use corpus::generate::hostile::{BUCKETS, SHAPES, bucket, object_key};
use corpus::script_index;
use std::collections::BTreeSet;

/// The shape of a name, with n of it.
fn shape(name: &str, n: u32) -> (Corpus, Census) {
    let (_, shape) = (SHAPES.iter()).find(|(s, _)| *s == name).expect("a shape");
    let corpus = shape(n).bytes();
    (decode(&corpus), census(&corpus))
}

#[test]
fn one_bucket() {
    for n in [1, 2, 3, 10, 1_000, 20_000] {
        let (corpus, counted) = shape("objects in one bucket", n);
        let globals = corpus.script.entries.iter().map(|e| e.global);
        let distinct: BTreeSet<u64> = globals.clone().collect();
        assert_eq!(distinct.len(), n as usize);
        assert!(globals.clone().all(|g| g >> 62 == 1));
        let mut keys = globals.map(object_key);
        assert!(keys.all(|(lo, hi)| bucket(BUCKETS * u64::from(n), lo, hi) == 0));
        assert_eq!(counted.candidates, u64::from(n));
    }
}

/// Each has as many objects as it says, as deep, and with names as long.
#[test]
fn heavy_shapes() {
    let found = heavy::SHAPES.map(|(name, shape)| {
        let corpus = shape(1_000);
        let paths: Vec<_> = corpus.paths().filter_map(|(_, path)| path).collect();
        let deepest = paths.iter().map(|path| path.names.len()).max();
        let longest = corpus.names.iter().map(|name| name.text().chars().count());
        let names = corpus.names.len()
            + corpus
                .packages
                .iter()
                .map(|(_, p)| p.names.len())
                .sum::<usize>();
        (
            name,
            paths.len(),
            deepest.unwrap_or(0),
            longest.max().unwrap_or(0),
            names,
        )
    });
    let wanted = [
        ("chains of 65 objects in one bucket", 1_000, 65, 1, 1_000),
        ("objects below 64 others", 1_064, 65, 5, 2),
        ("objects below 64 long names", 65, 65, 8_191, 2),
        ("long wide names of objects", 10, 1, 32_767, 1),
        ("long names of objects beyond ASCII", 10, 1, 32_767, 1),
        ("objects by the last of many names", 1_000, 1, 4, 10_000),
        ("a package by the last of many names", 0, 0, 0, 10_001),
    ];
    assert_eq!(found, wanted);
    let chains = heavy::SHAPES[0].1(1_000);
    let mut keys = chains.entries.iter().map(|entry| object_key(entry.global));
    assert!(keys.all(|(lo, hi)| bucket(BUCKETS * 1_000, lo, hi) == 0));
}

/// From every row's class 64 supers lead to a native class.
#[test]
fn chains_of_64() {
    for (name, classes) in [
        ("chains of 64 classes", 64),
        ("chains of 64 among many classes", 1_024),
    ] {
        let (corpus, counted) = shape(name, 1_000);
        let exports = &corpus.packages[0].exports;
        let rows = exports.iter().filter(|export| export.hash == 0);
        for row in rows.clone() {
            let above = |at: &u64| Some(exports.get(*at as usize)?.super_index);
            let last = std::iter::successors(Some(row.class), above).nth(64);
            assert_eq!(last, Some(script_index(1)));
        }
        assert_eq!((rows.count(), counted.classes), (1_000, classes));
    }
}

/// Every export is a class and a row, and its class's path has 65 objects.
#[test]
fn outers_of_65() {
    let (_, counted) = shape("outers of 65", 1_000);
    assert_eq!(counted.paths[65], 1_000);
    assert_eq!(counted.features["class and candidate"], 1_000);
}

/// How many classes and rows each shape has.
#[test]
fn classes_and_rows() {
    let found = SHAPES.map(|(name, _)| {
        let (_, counted) = shape(name, 200);
        (name, counted.classes, counted.candidates)
    });
    let wanted = [
        ("objects in one bucket", 0, 200),
        ("class keys that agree in 47 turns", 200, 200),
        ("class keys that agree in 111 turns", 200, 200),
        ("chains of 64 classes", 64, 200),
        ("chains of 64 among many classes", 256, 200),
        ("a ring of classes", 200, 200),
        ("outers of 65", 200, 200),
        ("the last of many names", 0, 200),
        ("the last of many names, thrice", 0, 200),
        ("long names", 0, 2),
        ("long wide names", 0, 2),
        ("long imported names", 0, 2),
        ("long imported names beyond ASCII", 0, 2),
        ("two packages of one id", 200, 200),
        ("tiny packages", 0, 200),
        ("names beyond ASCII", 0, 200),
    ];
    assert_eq!(found, wanted);
}
