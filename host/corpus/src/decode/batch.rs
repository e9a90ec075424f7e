use super::le;
use crate::name;
use std::ops::Range;

#[derive(Debug)]
pub struct Batch {
    /// the passed-over hash of each name
    pub hashes: Range<usize>,
    pub names: Vec<Name>,
    pub end: usize,
}

#[derive(Debug, Clone)]
pub struct Name {
    pub at: usize,
    /// from the start of the batch's strings
    pub offset: usize,
    pub wide: bool,
    pub text: String,
}

impl Batch {
    pub fn read(bytes: &[u8], at: usize) -> Batch {
        let count = le(bytes, at, 4) as usize;
        if count == 0 {
            return Batch {
                hashes: at + 4..at + 4,
                names: Vec::new(),
                end: at + 4,
            };
        }
        let hashes = at + 16..at + 16 + 8 * count;
        let strings = hashes.end + 2 * count;
        let mut next = strings;
        let mut names = Vec::new();
        for i in 0..count {
            let header = hashes.end + 2 * i;
            let (wide, size) = size(bytes[header], bytes[header + 1]);
            names.push(Name {
                at: next,
                offset: next - strings,
                wide,
                text: name::decoded(&bytes[next..next + size], wide).expect("an accepted name"),
            });
            next += size;
        }
        Batch {
            hashes,
            names,
            end: next,
        }
    }

    /// A name rendered: with its number's suffix.
    pub fn rendered(&self, (index, number): (usize, u32)) -> String {
        name::rendered(&self.names[index].text, number)
    }
}

/// Whether a name is UTF-16, and its bytes.
fn size(first: u8, second: u8) -> (bool, usize) {
    let units = usize::from(first & 0x7f) << 8 | usize::from(second);
    let wide = first >= 0x80;
    (wide, if wide { 2 * units } else { units })
}
