//! What a class index or a super index of a package means, and its text in the report.
use crate::city::city_hash64;
use crate::lower::lower;
use crate::package::Package;
use crate::script::{Kind, kind};
use crate::text::{Text, decimal, hex16};

/// Package id and public hash.
pub type Key = (u64, u64);

pub enum Reference {
    Script(u64),
    Import(Key, Text),
    Export(Key, Text),
    Null,
    Bad(Text),
}

pub fn reference(package: &Package, index: u64) -> Reference {
    match kind(index) {
        Kind::Script => Reference::Script(index),
        Kind::PackageImport => import(package, index),
        Kind::Export => local(package, index),
        Kind::Null => Reference::Null,
    }
}

/// Bits 32 to 61 are the name number, bits 0 to 31 the hash number.
fn import(package: &Package, index: u64) -> Reference {
    let name_number = index >> 32 & 0x3fff_ffff;
    let hash_number = index & 0xffff_ffff;
    let name = package.imported.get(name_number as usize);
    let hash = package.hashes.get(hash_number as usize);
    if let (Some(name), Some(hash)) = (name, hash) {
        let text = [b"package:", &name[..], b"#0x", &hex16(*hash)].concat();
        return Reference::Import((package_id(name), *hash), text);
    }
    Reference::Bad(
        [
            &b"package import "[..],
            &decimal(name_number),
            b"/",
            &decimal(hash_number),
            b" outside ",
            &decimal(package.imported.len() as u64),
            b" packages / ",
            &decimal(package.hashes.len() as u64),
            b" hashes",
        ]
        .concat(),
    )
}

/// The same package's export, numbered from 0.
fn local(package: &Package, index: u64) -> Reference {
    if let Some(export) = package.exports.get(index as usize) {
        let text = [&b"export:"[..], &export.name.rendered()].concat();
        return Reference::Export((package.id, export.hash), text);
    }
    Reference::Bad(
        [
            &b"local export "[..],
            &decimal(index),
            b" outside ",
            &decimal(package.exports.len() as u64),
            b" exports",
        ]
        .concat(),
    )
}

/// CityHash64 of the name in UTF-16LE, lowered.
pub fn package_id(name: &[u8]) -> u64 {
    let name = str::from_utf8(name).expect("texts are UTF-8");
    let mut bytes = Vec::new();
    for c in name.chars() {
        let units = &mut [0; 2];
        for unit in lower(c).encode_utf16(units) {
            bytes.extend(unit.to_le_bytes());
        }
    }
    city_hash64(&bytes)
}

impl Reference {
    pub fn text(&self) -> Text {
        match self {
            Reference::Script(index) => [&b"script:0x"[..], &hex16(*index)].concat(),
            Reference::Import(_, text) | Reference::Export(_, text) | Reference::Bad(text) => {
                text.clone()
            }
            Reference::Null => b"null".to_vec(),
        }
    }
}
