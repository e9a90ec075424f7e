use crate::Text;

const VERSION: u64 = 0xC164_0000;

/// A name batch.
#[derive(Debug, Clone, Default)]
pub struct BatchDraft {
    pub count: u32,
    pub length: u32,
    pub version: u64,
    pub hashes: Vec<u8>,
    pub headers: Vec<[u8; 2]>,
    pub strings: Vec<u8>,
    /// whether anything is written behind the count
    pub full: bool,
}

impl BatchDraft {
    pub fn of(names: &[Text]) -> BatchDraft {
        let mut d = BatchDraft {
            count: names.len() as u32,
            version: VERSION,
            full: !names.is_empty(),
            ..BatchDraft::default()
        };
        for (i, name) in names.iter().enumerate() {
            let hash = (i as u64).wrapping_mul(0x9e37_79b9_7f4a_7c15);
            d.hashes.extend(hash.to_le_bytes());
            d.headers.push(name.header());
            name.write(&mut d.strings);
        }
        d.length = d.strings.len() as u32;
        d
    }

    pub fn write(&self, out: &mut Vec<u8>) {
        out.extend(self.count.to_le_bytes());
        if self.full {
            out.extend(self.length.to_le_bytes());
            out.extend(self.version.to_le_bytes());
            out.extend(&self.hashes);
            out.extend(self.headers.as_flattened());
            out.extend(&self.strings);
        }
    }

    /// How many bytes `write` appends.
    pub fn size(&self) -> usize {
        let rest = 12 + self.hashes.len() + 2 * self.headers.len() + self.strings.len();
        4 + if self.full { rest } else { 0 }
    }

    pub fn is_wide(&self, i: usize) -> bool {
        self.headers[i][0] >= 0x80
    }

    pub fn units(&self, i: usize) -> usize {
        usize::from(self.headers[i][0] & 0x7f) << 8 | usize::from(self.headers[i][1])
    }

    /// Where name i starts among the strings.
    pub fn start(&self, i: usize) -> usize {
        (0..i)
            .map(|k| self.units(k) << usize::from(self.is_wide(k)))
            .sum()
    }
}
