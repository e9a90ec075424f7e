//! What a class or super index of a package means, and its text in a report.
use super::header::Header;
use super::index::{Kind, kind};
use super::names::id;

/// Package id and public hash.
pub(super) type Key = (u64, u64);

pub(super) enum Meaning {
    Script(u64),
    Import(Key),
    Export(Key),
    Null,
    Bad,
}

pub(super) struct Reference {
    pub(super) meaning: Meaning,
    pub(super) text: String,
}

pub(super) fn reference(package: &Header, index: u64) -> Reference {
    match kind(index) {
        Kind::Script => Reference {
            meaning: Meaning::Script(index),
            text: format!("script:{index:#018x}"),
        },
        Kind::Import => import(package, index),
        Kind::Export => local(package, index),
        Kind::Null => Reference {
            meaning: Meaning::Null,
            text: "null".to_owned(),
        },
    }
}

/// Bits 32 to 61 are the imported name's number, bits 0 to 31 the hash's.
fn import(package: &Header, index: u64) -> Reference {
    let (name, hash) = (index >> 32 & 0x3fff_ffff, index & 0xffff_ffff);
    let (names, hashes) = (&package.imported, &package.hashes);
    if let (Some(name), Some(hash)) = (names.get(name as usize), hashes.get(hash as usize)) {
        return Reference {
            meaning: Meaning::Import((id(name), *hash)),
            text: format!("package:{name}#{hash:#018x}"),
        };
    }
    let (names, hashes) = (names.len(), hashes.len());
    bad(format!(
        "package import {name}/{hash} outside {names} packages / {hashes} hashes"
    ))
}

/// The same package's export, numbered from 0.
fn local(package: &Header, index: u64) -> Reference {
    let exports = &package.exports;
    if let Some(export) = exports.get(index as usize) {
        return Reference {
            meaning: Meaning::Export((package.id, export.hash)),
            text: format!("export:{}", package.rendered(export)),
        };
    }
    bad(format!(
        "local export {index} outside {} exports",
        exports.len()
    ))
}

fn bad(text: String) -> Reference {
    let meaning = Meaning::Bad;
    Reference { meaning, text }
}
