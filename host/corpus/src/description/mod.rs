//! What document 02's writer of headers is given: a package header described by its names and records alone.
mod features;

use crate::draft::{DescriptionDraft, PackageDraft};
use crate::package::place;
use crate::{Export, Package, Text};

pub use features::Features;

#[derive(Debug, Clone, Default, PartialEq, Eq)]
pub struct Description {
    /// the package's text number and instance number
    pub name: (u32, u32),
    pub texts: Vec<String>,
    pub exports: Vec<Export>,
    pub hashes: Vec<u64>,
    pub imported: Vec<(String, u32)>,
}

impl Description {
    /// What is described of a package: not how wide a text is stored, nor anything that is passed over.
    pub fn of(p: &Package) -> Description {
        let export = |e: &Export| Export {
            name: place(e.name),
            ..*e
        };
        Description {
            name: (place(p.name.0), p.name.1),
            texts: p.names.iter().map(Text::text).collect(),
            exports: p.exports.iter().map(export).collect(),
            hashes: p.hashes.clone(),
            imported: (p.imported.iter())
                .map(|(name, number)| (name.text(), *number))
                .collect(),
        }
    }

    /// The package described: text that fits Latin-1 is stored so, and what is not described is empty.
    pub fn package(&self) -> Package {
        let imported = self.imported.iter();
        Package {
            names: self.texts.iter().map(|text| Text::of(text)).collect(),
            name: self.name,
            hashes: self.hashes.clone(),
            exports: self.exports.clone(),
            imported: imported
                .map(|(text, number)| (Text::of(text), *number))
                .collect(),
            ..Package::default()
        }
    }

    pub fn draft(&self) -> DescriptionDraft {
        DescriptionDraft::of(self)
    }

    /// In house form.
    pub fn bytes(&self) -> Vec<u8> {
        self.draft().bytes()
    }

    /// The header, by the writer of the corpora, with 0 for all that is passed over.
    pub fn header(&self) -> Vec<u8> {
        PackageDraft::of(&self.package()).cleared().bytes()
    }
}
