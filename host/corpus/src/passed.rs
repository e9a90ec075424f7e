//! Where document 01's passed-over bytes and bits lie in an accepted corpus.
use crate::decode::{Corpus, Entry, Export, Package};
use std::ops::Range;

/// What is passed over, in document 01's order; split by block where the same thing lies in several.
pub const KINDS: [&str; 21] = [
    "name hashes of the script block",
    "name hashes of a package",
    "name hashes of imported names",
    "top bits of a script object's name",
    "top bits of a package's name",
    "top bits of an export's name",
    "class default object",
    "package flags",
    "cooked size",
    "bulk bytes",
    "import map",
    "serial offset",
    "serial size",
    "template",
    "object flags",
    "filter flags",
    "three bytes behind the filter flags",
    "bundle entries",
    "dependency headers",
    "dependency entries",
    "bytes past the header size",
];

/// Bytes of one kind, and which bits of each are passed over.
#[derive(Debug, Clone, PartialEq, Eq)]
pub struct Place {
    pub kind: usize,
    pub bytes: Range<usize>,
    pub mask: u8,
}

fn whole(kind: usize, bytes: Range<usize>) -> Place {
    let mask = 0xff;
    Place { kind, bytes, mask }
}

fn field(kind: usize, at: usize, length: usize) -> Place {
    whole(kind, at..at + length)
}

/// The top two bits of the mapped name at a position: its index is little-endian.
fn top_bits(kind: usize, at: usize) -> Place {
    Place {
        kind,
        bytes: at + 3..at + 4,
        mask: 0xc0,
    }
}

pub fn places(corpus: &Corpus) -> Vec<Place> {
    let mut out = vec![whole(0, corpus.script.batch.hashes.clone())];
    out.extend(corpus.script.entries.iter().flat_map(of_entry));
    for package in &corpus.packages {
        out.extend(of_summary_and_regions(package));
        out.extend(package.exports.iter().flat_map(of_export));
    }
    out
}

fn of_entry(entry: &Entry) -> [Place; 2] {
    [top_bits(3, entry.at), field(6, entry.at + 24, 8)]
}

fn of_summary_and_regions(p: &Package) -> [Place; 11] {
    let at = p.block.start;
    [
        whole(1, p.batch.hashes.clone()),
        whole(2, p.imported.hashes.clone()),
        top_bits(4, at + 8),
        field(7, at + 16, 4),
        field(8, at + 20, 4),
        whole(9, p.bulk()),
        whole(10, p.regions[1]..p.regions[2]),
        whole(17, p.regions[3]..p.regions[4]),
        whole(18, p.regions[4]..p.regions[5]),
        whole(19, p.regions[5]..p.regions[6]),
        whole(20, p.header_end..p.block.end),
    ]
}

fn of_export(export: &Export) -> [Place; 7] {
    let at = export.at;
    [
        field(11, at, 8),
        field(12, at + 8, 8),
        top_bits(5, at + 16),
        field(13, at + 48, 8),
        field(14, at + 64, 4),
        field(15, at + 68, 1),
        field(16, at + 69, 3),
    ]
}
