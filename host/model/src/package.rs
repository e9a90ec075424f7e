//! The package header.
use answer::Refusal;

use crate::names::{Mapped, Name, name_batch};
use crate::reader::{Reader, little_endian};
use crate::text::Text;

const SUMMARY: usize = 52;
const EXPORT: usize = 72;

pub struct Package {
    pub id: u64,
    pub block: u32,
    /// rendered
    pub name: Text,
    pub hashes: Vec<u64>,
    pub exports: Vec<Export>,
    /// rendered
    pub imported: Vec<Text>,
}

pub struct Export {
    pub name: Name,
    pub outer: u64,
    pub class: u64,
    pub super_index: u64,
    pub hash: u64,
}

/// What is kept of the summary.
struct Summary {
    name: Mapped,
    regions: Regions,
}

/// The offsets in the summary: where each region starts.
struct Regions {
    hashes: usize,
    imports: usize,
    exports: usize,
    bundle_entries: usize,
    imported: usize,
}

pub fn package_block(bytes: &[u8], id: u64, block: u32) -> Result<Package, Refusal> {
    let header = header(bytes, block)?;
    let r = &mut Reader::new(header, block);
    let Summary { name, regions } = summary(r, header.len())?;
    let names = name_batch(r)?;
    let bulk = r.i64()?;
    r.ask(bulk >= 0, 18)?;
    r.take(bulk as u64)?;
    r.ask(r.position() == regions.hashes, 19)?;
    r.ask((regions.imports - regions.hashes) % 8 == 0, 20)?;
    r.ask((regions.exports - regions.imports) % 8 == 0, 20)?;
    r.ask((regions.bundle_entries - regions.exports) % EXPORT == 0, 21)?;
    let hashes = &header[regions.hashes..regions.imports];
    let exports = exports(header, &regions, &names, block)?;
    let imported = imported_names(header, &regions, block)?;
    let name = name.name(r, &names)?.rendered();
    Ok(Package {
        id,
        block,
        name,
        hashes: hashes.chunks(8).map(little_endian).collect(),
        exports,
        imported,
    })
}

/// Only the first header-size bytes count.
fn header(bytes: &[u8], block: u32) -> Result<&[u8], Refusal> {
    let r = &mut Reader::new(bytes, block);
    let versioning_flag = r.u32()?;
    r.ask(versioning_flag == 0, 14)?;
    let size = r.u32()? as usize;
    r.ask(size <= bytes.len(), 15)?;
    Ok(&bytes[..size])
}

fn summary(r: &mut Reader, header_size: usize) -> Result<Summary, Refusal> {
    let _flag_and_header_size = r.take(8)?;
    let name = Mapped::read(r)?;
    let _package_flags = r.u32()?;
    let _cooked_size = r.u32()?;
    let mut offsets = [0; 7];
    for offset in &mut offsets {
        let read = r.i32()?;
        r.ask(read >= 0, 16)?;
        *offset = read as usize;
    }
    let mut predecessor = SUMMARY;
    for offset in offsets {
        r.ask(predecessor <= offset && offset <= header_size, 17)?;
        predecessor = offset;
    }
    let [hashes, imports, exports, bundle_entries, _, _, imported] = offsets;
    let regions = Regions {
        hashes,
        imports,
        exports,
        bundle_entries,
        imported,
    };
    Ok(Summary { name, regions })
}

fn exports(
    header: &[u8],
    regions: &Regions,
    names: &[Text],
    block: u32,
) -> Result<Vec<Export>, Refusal> {
    let r = &mut Reader::starting(&header[..regions.bundle_entries], regions.exports, block);
    let mut exports = Vec::new();
    while r.left() > 0 {
        let _serial_offset_and_size = r.take(16)?;
        let name = Mapped::read(r)?;
        let outer = r.u64()?;
        let class = r.u64()?;
        let super_index = r.u64()?;
        let _template = r.u64()?;
        let hash = r.u64()?;
        let _object_flags_filter_flags_and_three_bytes = r.take(8)?;
        let name = name.name(r, names)?;
        exports.push(Export {
            name,
            outer,
            class,
            super_index,
            hash,
        });
    }
    Ok(exports)
}

/// A batch, then a number per name, rendered; and nothing left.
fn imported_names(header: &[u8], regions: &Regions, block: u32) -> Result<Vec<Text>, Refusal> {
    let r = &mut Reader::starting(header, regions.imported, block);
    let mut imported = Vec::new();
    for base in name_batch(r)? {
        let number = r.u32()?;
        imported.push(Name { base, number }.rendered());
    }
    r.ask(r.left() == 0, 22)?;
    Ok(imported)
}
