use super::{Batch, be, le, mapped};
use std::ops::Range;

#[derive(Debug)]
pub struct Package {
    pub id: u64,
    pub block: Range<usize>,
    pub header_end: usize,
    pub name: (usize, u32),
    /// where the seven regions start
    pub regions: [usize; 7],
    pub batch: Batch,
    pub hashes: Vec<u64>,
    pub exports: Vec<Export>,
    pub imported: Batch,
    pub numbers: Vec<u32>,
}

#[derive(Debug, Clone, Copy)]
pub struct Export {
    pub at: usize,
    pub name: (usize, u32),
    /// those of the mapped name's index, which count for nothing
    pub top_bits: u8,
    pub outer: u64,
    pub class: u64,
    pub super_index: u64,
    pub hash: u64,
}

impl Package {
    pub fn read(bytes: &[u8], block: Range<usize>) -> Package {
        let at = block.start;
        let regions: [usize; 7] =
            std::array::from_fn(|i| at + le(bytes, at + 24 + 4 * i, 4) as usize);
        let imported = Batch::read(bytes, regions[6]);
        let number = |i: usize| le(bytes, imported.end + 4 * i, 4) as u32;
        Package {
            id: be(bytes, at - 12, 8),
            header_end: at + le(bytes, at + 4, 4) as usize,
            name: mapped(bytes, at + 8),
            batch: Batch::read(bytes, at + 52),
            hashes: (regions[0]..regions[1])
                .step_by(8)
                .map(|at| le(bytes, at, 8))
                .collect(),
            exports: (regions[2]..regions[3])
                .step_by(72)
                .map(|at| Export::read(bytes, at))
                .collect(),
            numbers: (0..imported.names.len()).map(number).collect(),
            imported,
            regions,
            block,
        }
    }

    /// The bulk bytes, behind the name batch and the bulk size.
    pub fn bulk(&self) -> Range<usize> {
        self.batch.end + 8..self.regions[0]
    }

    /// An imported name, rendered.
    pub fn imported(&self, i: usize) -> String {
        self.imported.rendered((i, self.numbers[i]))
    }

    /// The export that another one's outer points at.
    pub fn outer(&self, export: &Export) -> Option<&Export> {
        self.exports.get(usize::try_from(export.outer).ok()?)
    }
}

impl Export {
    fn read(bytes: &[u8], at: usize) -> Export {
        Export {
            at,
            name: mapped(bytes, at + 16),
            top_bits: bytes[at + 19] >> 6,
            outer: le(bytes, at + 24, 8),
            class: le(bytes, at + 32, 8),
            super_index: le(bytes, at + 40, 8),
            hash: le(bytes, at + 56, 8),
        }
    }
}
