//! Which exports are classes, and which are candidates.
use crate::names::suffix;
use crate::package::{Export, Package};
use crate::script::{Kind, Script, kind};
use crate::text::Text;

const TEMPLATE_SUFFIX: &[u8] = b"_GEN_VARIABLE";
const DEFAULT_PREFIX: &[u8] = b"Default__";

/// The export an outer of kind 0 points at, if it exists.
pub fn outer<'a>(package: &'a Package, export: &Export) -> Option<&'a Export> {
    match kind(export.outer) {
        Kind::Export => package.exports.get(export.outer as usize),
        _ => None,
    }
}

pub fn is_class(script: &Script, export: &Export, objects: u32) -> bool {
    if kind(export.class) != Kind::Script
        || kind(export.super_index) == Kind::Null
        || export.hash == 0
    {
        return false;
    }
    let path = script.path_of(export.class, objects);
    path.is_some_and(|path| {
        let last = path.rsplit(|byte| matches!(byte, b'.' | b':')).next();
        last.is_some_and(|part| part.ends_with(b"Class"))
    })
}

/// A class's path: package name, `.`, [outer rendered, `:`,] rendered.
pub fn class_path(package: &Package, export: &Export) -> Text {
    let mut path = [&package.name[..], b"."].concat();
    if let Some(outer) = outer(package, export) {
        path.extend(outer.name.rendered());
        path.push(b':');
    }
    path.extend(export.name.rendered());
    path
}

pub struct Candidate<'a> {
    pub export: &'a Export,
    pub kind: u8,
    pub numbered: bool,
    pub instance: Text,
}

pub fn candidate<'a>(package: &Package, export: &'a Export) -> Option<Candidate<'a>> {
    if let Some(rest) = export.name.base.strip_suffix(TEMPLATE_SUFFIX) {
        return Some(Candidate {
            export,
            kind: 1,
            numbered: export.name.number != 0,
            instance: [rest, &suffix(export.name.number)].concat(),
        });
    }
    let outer = outer(package, export)?;
    let default = outer.name.base.starts_with(DEFAULT_PREFIX);
    default.then(|| Candidate {
        export,
        kind: 2,
        numbered: false,
        instance: export.name.rendered(),
    })
}
