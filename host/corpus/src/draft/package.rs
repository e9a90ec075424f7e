use super::BatchDraft;
use crate::{Export, NULL, Package, Text};

/// A package's block.
#[derive(Debug, Clone, Default)]
pub struct PackageDraft {
    pub flag: u32,
    pub header_size: u32,
    pub name: (u32, u32),
    pub package_flags: u32,
    pub cooked_size: u32,
    pub offsets: [i32; 7],
    pub batch: BatchDraft,
    pub bulk_size: i64,
    pub bulk: Vec<u8>,
    pub hashes: Vec<u64>,
    pub imports: Vec<u64>,
    pub exports: Vec<ExportDraft>,
    /// bundle entries, dependency headers, dependency entries
    pub skipped: [Vec<u8>; 3],
    pub imported: BatchDraft,
    pub numbers: Vec<u32>,
    /// bytes past the header size
    pub tail: Vec<u8>,
    /// the block's length where it is cut short
    pub cut: Option<usize>,
}

#[derive(Debug, Clone, Copy)]
pub struct ExportDraft {
    pub serial: [u64; 2],
    pub name: u32,
    pub number: u32,
    pub outer: u64,
    pub class: u64,
    pub super_index: u64,
    pub template: u64,
    pub hash: u64,
    pub object_flags: u32,
    /// the filter flags and the three bytes behind them
    pub filter: [u8; 4],
}

impl ExportDraft {
    fn of(i: usize, e: &Export) -> ExportDraft {
        ExportDraft {
            serial: [1000 * i as u64, 1000],
            name: e.name,
            number: e.number,
            outer: e.outer,
            class: e.class,
            super_index: e.super_index,
            template: NULL,
            hash: e.hash,
            object_flags: 8,
            filter: [1, 0, 0, 0],
        }
    }

    fn write(&self, out: &mut Vec<u8>) {
        out.extend(self.serial.iter().flat_map(|n| n.to_le_bytes()));
        out.extend(self.name.to_le_bytes());
        out.extend(self.number.to_le_bytes());
        let indices = [self.outer, self.class, self.super_index, self.template];
        out.extend(indices.map(u64::to_le_bytes).as_flattened());
        out.extend(self.hash.to_le_bytes());
        out.extend(self.object_flags.to_le_bytes());
        out.extend(self.filter);
    }
}

impl PackageDraft {
    pub fn of(p: &Package) -> PackageDraft {
        let imported: Vec<Text> = p.imported.iter().map(|(name, _)| name.clone()).collect();
        let exports = p.exports.iter().enumerate();
        let mut d = PackageDraft {
            name: p.name,
            package_flags: 0x8000_0000,
            batch: BatchDraft::of(&p.names),
            bulk_size: p.bulk.len() as i64,
            bulk: p.bulk.clone(),
            hashes: p.hashes.clone(),
            imports: p.imports.clone(),
            exports: exports.map(|(i, e)| ExportDraft::of(i, e)).collect(),
            skipped: p.skipped.clone(),
            imported: BatchDraft::of(&imported),
            numbers: p.imported.iter().map(|(_, number)| *number).collect(),
            tail: p.tail.clone(),
            ..PackageDraft::default()
        };
        d.settle();
        d
    }

    /// With 0 in every passed-over field; what has no fixed length stays.
    #[must_use]
    pub fn cleared(mut self) -> PackageDraft {
        (self.package_flags, self.cooked_size) = (0, 0);
        self.batch.hashes.fill(0);
        self.imported.hashes.fill(0);
        for export in &mut self.exports {
            (export.serial, export.template) = ([0; 2], 0);
            (export.object_flags, export.filter) = (0, [0; 4]);
        }
        self
    }

    /// Offsets and sizes as the parts' lengths have them.
    fn settle(&mut self) {
        let mut at = 52 + self.batch.size() + 8 + self.bulk.len();
        let lengths = [
            8 * self.hashes.len(),
            8 * self.imports.len(),
            72 * self.exports.len(),
            self.skipped[0].len(),
            self.skipped[1].len(),
            self.skipped[2].len(),
            self.imported.size() + 4 * self.numbers.len(),
        ];
        for (offset, length) in self.offsets.iter_mut().zip(lengths) {
            *offset = at as i32;
            at += length;
        }
        self.header_size = at as u32;
        self.cooked_size = at as u32;
    }

    fn write_summary(&self, out: &mut Vec<u8>) {
        for n in [
            self.flag,
            self.header_size,
            self.name.0,
            self.name.1,
            self.package_flags,
            self.cooked_size,
        ] {
            out.extend(n.to_le_bytes());
        }
        out.extend(self.offsets.iter().flat_map(|o| o.to_le_bytes()));
    }

    pub fn bytes(&self) -> Vec<u8> {
        let mut out = Vec::new();
        self.write_summary(&mut out);
        self.batch.write(&mut out);
        out.extend(self.bulk_size.to_le_bytes());
        out.extend(&self.bulk);
        out.extend(self.hashes.iter().flat_map(|n| n.to_le_bytes()));
        out.extend(self.imports.iter().flat_map(|n| n.to_le_bytes()));
        for e in &self.exports {
            e.write(&mut out);
        }
        out.extend(self.skipped.iter().flatten());
        self.imported.write(&mut out);
        out.extend(self.numbers.iter().flat_map(|n| n.to_le_bytes()));
        out.extend(&self.tail);
        out.truncate(self.cut.unwrap_or(usize::MAX));
        out
    }
}
