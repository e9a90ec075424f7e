//! An accepted corpus taken apart by position: where each field lies, and the values that a census needs. Not a check:
//! a refused corpus panics or reads nonsense.
mod batch;
mod package;
mod script;

use std::ops::Range;

pub use batch::{Batch, Name};
pub use package::{Export, Package};
pub use script::{Entry, Script};

/// All positions are the corpus's own.
#[derive(Debug)]
pub struct Corpus {
    pub script: Script,
    pub packages: Vec<Package>,
}

pub fn decode(bytes: &[u8]) -> Corpus {
    let end = 9 + be(bytes, 5, 4) as usize;
    let script = Script::read(bytes, 9);
    let mut at = end + 4;
    let mut packages = Vec::new();
    for _ in 0..be(bytes, end, 4) {
        let block = at + 12..at + 12 + be(bytes, at + 8, 4) as usize;
        at = block.end;
        packages.push(Package::read(bytes, block));
    }
    Corpus { script, packages }
}

impl Corpus {
    /// A package with its id and length, as reordering moves it.
    pub fn whole(&self, i: usize) -> Range<usize> {
        let block = &self.packages[i].block;
        block.start - 12..block.end
    }
}

/// A big-endian number of n bytes.
pub fn be(bytes: &[u8], at: usize, n: usize) -> u64 {
    (bytes[at..at + n].iter()).fold(0, |v, b| v << 8 | u64::from(*b))
}

/// A little-endian number of n bytes.
fn le(bytes: &[u8], at: usize, n: usize) -> u64 {
    (bytes[at..at + n].iter().rev()).fold(0, |v, b| v << 8 | u64::from(*b))
}

/// A mapped name: its index without the top two bits, and its number.
fn mapped(bytes: &[u8], at: usize) -> (usize, u32) {
    let index = le(bytes, at, 4) & 0x3fff_ffff;
    (index as usize, le(bytes, at + 4, 4) as u32)
}
