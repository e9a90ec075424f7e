//! A package described by what it means; offsets and lengths follow from that.
use crate::Text;
use crate::draft::PackageDraft;

#[derive(Debug, Clone, Copy, PartialEq, Eq)]
pub struct Export {
    pub name: u32,
    pub number: u32,
    pub outer: u64,
    pub class: u64,
    pub super_index: u64,
    pub hash: u64,
}

/// A name's number in its batch: the low 30 bits of what a mapped name says.
pub(crate) fn place(name: u32) -> u32 {
    name & 0x3fff_ffff
}

#[derive(Debug, Clone, Default)]
pub struct Package {
    pub names: Vec<Text>,
    pub name: (u32, u32),
    pub bulk: Vec<u8>,
    pub hashes: Vec<u64>,
    pub imports: Vec<u64>,
    pub exports: Vec<Export>,
    /// bundle entries, dependency headers, dependency entries
    pub skipped: [Vec<u8>; 3],
    pub imported: Vec<(Text, u32)>,
    /// bytes past the header size
    pub tail: Vec<u8>,
}

impl Package {
    pub fn bytes(&self) -> Vec<u8> {
        PackageDraft::of(self).bytes()
    }

    /// Adds a name to the batch and gives its number.
    pub fn add_name(&mut self, name: Text) -> u32 {
        self.names.push(name);
        self.names.len() as u32 - 1
    }
}
