//! A package's header, so far as chains need it.
use super::described::read;
use super::index::{Kind, kind};
use super::names::rendered;
use crate::Export;

pub(super) struct Header {
    pub(super) id: u64,
    pub(super) name: String,
    names: Vec<String>,
    pub(super) hashes: Vec<u64>,
    pub(super) exports: Vec<Export>,
    /// with instance numbers
    pub(super) imported: Vec<String>,
}

impl Header {
    pub(super) fn read(id: u64, block: &[u8]) -> Option<Header> {
        let (_, read) = read(block)?;
        let imported = read.imported.iter();
        Some(Header {
            id,
            name: read.name.rendered(&read.texts),
            names: read.texts,
            hashes: read.hashes,
            exports: read.exports,
            imported: imported
                .map(|name| rendered(&name.text, name.number))
                .collect(),
        })
    }

    pub(super) fn rendered(&self, export: &Export) -> String {
        export.name.rendered(&self.names)
    }

    fn base(&self, export: &Export) -> &str {
        export.name.base(&self.names)
    }

    /// The export that an export lies in.
    fn outer(&self, export: &Export) -> Option<&Export> {
        match kind(export.outer) {
            Kind::Export => self.exports.get(export.outer as usize),
            _ => None,
        }
    }

    /// Whether an export is a component, and so has a row.
    pub(super) fn is_component(&self, export: &Export) -> bool {
        let default = |outer| self.base(outer).starts_with("Default__");
        self.base(export).ends_with("_GEN_VARIABLE") || self.outer(export).is_some_and(default)
    }

    /// The path of a class: package name, `.`, [outer, `:`,] its own name.
    pub(super) fn class_path(&self, class: &Export) -> String {
        let (package, own) = (&self.name, self.rendered(class));
        match self.outer(class) {
            None => format!("{package}.{own}"),
            Some(outer) => format!("{package}.{}:{own}", self.rendered(outer)),
        }
    }
}
