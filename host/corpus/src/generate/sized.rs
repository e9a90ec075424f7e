//! A corpus whose report has a wanted length, however much longer than the corpus itself: a row shows its class's path
//! twice, and a path joins up to 65 names of up to 32,767 characters.
use crate::{Described, Export, NULL, Package, ScriptEntry, Text, script_index};

/// A character of three bytes in UTF-8, and how many of them the longest name has.
const CHARACTER: &str = "音";
const WIDTH: u64 = 3;
const LONGEST: u64 = 32_767;

/// The most objects that a path can have.
const DEEPEST: u64 = 65;

/// The shortest name of a candidate; its instance is empty.
const CANDIDATE: &str = "_GEN_VARIABLE";

/// A report of one package without its name and rows: length, version and count, then id, the name's length, two counts.
const REPORT: u64 = 4 + 1 + 4 + 8 + 4 + 4 + 4;

/// A row without its class's path: length, six bytes, the lengths of six texts, the export's name, `script:0x` and digits.
const ROW: u64 = 4 + 6 + 6 * 4 + CANDIDATE.len() as u64 + 9 + 16;

/// The length of a path of so many of the longest names, with what stands between them.
fn path(objects: u64) -> u64 {
    objects * WIDTH * LONGEST + objects - 1
}

fn row(object: u64) -> Export {
    Export {
        name: 1,
        number: 0,
        outer: NULL,
        class: script_index(object),
        super_index: NULL,
        hash: 0,
    }
}

/// A corpus of one package whose report has exactly this many bytes, at least `REPORT`.
pub fn sized(report: u64) -> Described {
    let mut left = report.checked_sub(REPORT).expect("room for a package");
    let mut corpus = nested();
    let mut exports = Vec::new();
    for depth in (1..=DEEPEST).rev() {
        let size = ROW + 2 * path(depth);
        exports.extend((0..left / size).map(|_| row(depth)));
        left %= size;
    }
    if let Some(twice) = left.checked_sub(ROW) {
        let characters = twice / (2 * WIDTH);
        let name = Text::wide(&CHARACTER.repeat(characters as usize));
        let last = corpus.add_object(name, 0, script_index(DEEPEST + 1), NULL);
        exports.push(row(last));
        left -= ROW + 2 * WIDTH * characters;
    }
    // What is left is less than a row: so long is the package's name.
    let package = Package {
        names: vec![Text::of(&"P".repeat(left as usize)), Text::of(CANDIDATE)],
        exports,
        ..Package::default()
    };
    corpus.packages.push((1, package));
    corpus
}

/// Lengths from the least on; around the first row; around the least row of one long name, and of two; past one of 65.
pub fn sized_edges() -> impl Iterator<Item = u64> {
    let edges = [
        29..32,
        99..109,
        196_701..196_706,
        393_305..393_310,
        13_000_001..13_000_002,
    ];
    edges.into_iter().flatten()
}

/// Objects 1 to 65, each the outer of the next, which all have one name: the longest.
fn nested() -> Described {
    let entry = |depth: u64| ScriptEntry {
        name: 0,
        number: 0,
        global: script_index(depth),
        outer: if depth == 1 {
            NULL
        } else {
            script_index(depth - 1)
        },
    };
    Described {
        names: vec![Text::wide(&CHARACTER.repeat(LONGEST as usize))],
        entries: (1..=DEEPEST).map(entry).collect(),
        packages: Vec::new(),
    }
}
