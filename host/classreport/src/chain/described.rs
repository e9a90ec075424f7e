//! A package's header, read as what describes it.
use super::Disagreement;
use super::names::batch;
use super::reader::Reader;
use crate::{Description, Export, ImportedName, Name, header};

/// What a header says, and what a description has no place for.
#[derive(Debug, Clone, PartialEq, Eq)]
pub struct Described {
    /// Names are texts and numbers apart. Written again it gives the same header, but for what is left out.
    pub description: Description,
    /// What else the block holds.
    pub left_out: LeftOut,
}

/// What a block holds that a description doesn't say.
#[derive(Debug, Clone, Copy, Default, PartialEq, Eq)]
pub struct LeftOut {
    /// Bytes of bulk data entries.
    pub bulk: usize,
    /// Indices of the import map.
    pub imports: usize,
    /// Bytes of bundle entries, dependency headers and dependency entries.
    pub bundles: usize,
    /// Bytes behind the header.
    pub behind: usize,
    /// Whether any other byte is not as it would be written: a name's hash, package flags, sizes, an export's template or
    /// flags; or a name that fits Latin-1 and is in wide text.
    pub values: bool,
}

/// Describes a package header that the call accepts in a corpus, with whatever stands behind it.
///
/// ```
/// use classreport::{CorpusBuilder, chain, header, verify};
///
/// # let named = classreport::Description { texts: vec!["A".to_owned()], ..Default::default() };
/// # let bytes = header(&named)?;
/// let mut corpus = CorpusBuilder::new(&[0; 8])?;
/// corpus.add(0, &bytes)?;
/// verify(&corpus.finish())?;
/// let described = chain::described(&bytes)?;
/// println!("{} exports", described.description.exports.len());
/// assert_eq!(described.left_out, Default::default());
/// # Ok::<(), Box<dyn std::error::Error>>(())
/// ```
///
/// # Errors
/// Where it can't be read here.
pub fn described(block: &[u8]) -> Result<Described, Disagreement> {
    let unreadable = Disagreement::unreadable(2);
    let (regions, description) = read(block).ok_or(unreadable)?;
    let left_out = regions.left_out(block, &description);
    Ok(Described {
        description,
        left_out,
    })
}

/// Where the regions of a header start.
pub(super) struct Regions {
    name: Name,
    size: usize,
    /// behind the name batch: the bulk size stands there
    bulk: usize,
    hashes: usize,
    imports: usize,
    exports: usize,
    bundles: usize,
    imported: usize,
}

/// Reads a block of an accepted corpus.
pub(super) fn read(block: &[u8]) -> Option<(Regions, Description)> {
    let mut r = Reader::new(block);
    let mut regions = Regions::read(&mut r)?;
    let texts = batch(&mut r)?;
    regions.bulk = r.at();
    let passed_over = [
        regions.bulk + 8..regions.hashes,
        regions.imports..regions.exports,
        regions.bundles..regions.imported,
    ];
    if passed_over
        .into_iter()
        .any(|region| block.get(region).is_none())
    {
        return None;
    }
    let description = Description {
        name: regions.name,
        texts,
        hashes: hashes(block.get(regions.hashes..regions.imports)?),
        exports: exports(block.get(regions.exports..regions.bundles)?)?,
        imported: imported(block.get(regions.imported..regions.size)?)?,
    };
    let mut names = description.exports.iter().map(|export| export.name);
    let texts = &description.texts;
    let all_there = regions.name.is_in(texts) && names.all(|name| name.is_in(texts));
    all_there.then_some((regions, description))
}

impl Regions {
    /// Reads the summary.
    fn read(r: &mut Reader) -> Option<Regions> {
        let _flag = r.u32()?;
        let size = r.size()?;
        let name = Name::read(r)?;
        let _flags_and_cooked_size = r.u64()?;
        let mut offsets = [0; 7];
        for offset in &mut offsets {
            *offset = r.size()?;
        }
        let [hashes, imports, exports, bundles, _, _, imported] = offsets;
        Some(Regions {
            name,
            size,
            bulk: r.at(),
            hashes,
            imports,
            exports,
            bundles,
            imported,
        })
    }

    fn left_out(&self, block: &[u8], description: &Description) -> LeftOut {
        let written = header(description).unwrap_or_default();
        LeftOut {
            bulk: self.hashes - (self.bulk + 8),
            imports: (self.exports - self.imports) / 8,
            bundles: self.imported - self.bundles,
            behind: block.len() - self.size,
            values: self.plain(block, &written).as_ref() != Some(&written),
        }
    }

    /// The block without what a description has no place for, with the sizes and offsets of what was written for it.
    fn plain(&self, block: &[u8], written: &[u8]) -> Option<Vec<u8>> {
        let regions = [
            block.get(..self.bulk)?,
            &[0; 8],
            block.get(self.hashes..self.imports)?,
            block.get(self.exports..self.bundles)?,
            block.get(self.imported..self.size)?,
        ];
        let mut plain = regions.concat();
        for field in [4..8, 24..52] {
            plain[field.clone()].copy_from_slice(written.get(field)?);
        }
        Some(plain)
    }
}

fn hashes(region: &[u8]) -> Vec<u64> {
    let (hashes, _) = region.as_chunks();
    hashes.iter().copied().map(u64::from_le_bytes).collect()
}

fn exports(region: &[u8]) -> Option<Vec<Export>> {
    let mut r = Reader::new(region);
    let mut exports = Vec::new();
    while !r.is_empty() {
        let _serial = r.take(16)?;
        let name = Name::read(&mut r)?;
        let (outer, class, super_index) = (r.u64()?, r.u64()?, r.u64()?);
        let _template = r.u64()?;
        let hash = r.u64()?;
        let _flags = r.u64()?;
        exports.push(Export {
            name,
            outer,
            class,
            super_index,
            hash,
        });
    }
    Some(exports)
}

fn imported(region: &[u8]) -> Option<Vec<ImportedName>> {
    let mut r = Reader::new(region);
    let texts = batch(&mut r)?;
    let numbered = |text: String| {
        let number = r.u32()?;
        Some(ImportedName { text, number })
    };
    texts.into_iter().map(numbered).collect()
}
