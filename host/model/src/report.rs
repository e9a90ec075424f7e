//! The report's bytes: sections and rows.
use crate::classes::{Candidate, outer};
use crate::package::Package;
use crate::references::reference;
use crate::resolve::{World, resolve};
use crate::text::Text;

/// A section without its rows.
pub fn section_head(package: &Package, rows: usize) -> Vec<u8> {
    let mut out = package.id.to_be_bytes().to_vec();
    put_text(&mut out, &package.name);
    out.extend((package.exports.len() as u32).to_be_bytes());
    out.extend((rows as u32).to_be_bytes());
    out
}

pub fn row(world: &World, package: &Package, candidate: &Candidate) -> Vec<u8> {
    let class = reference(package, candidate.export.class);
    let resolved = resolve(world, &class);
    let outer = outer(package, candidate.export).map(|outer| outer.name.rendered());
    let mut rest = vec![
        1,
        candidate.kind,
        u8::from(candidate.numbered),
        resolved.class_kind,
        u8::from(resolved.class.is_some()),
        u8::from(resolved.native.is_some()),
    ];
    put_text(&mut rest, &candidate.instance);
    put_text(&mut rest, &candidate.export.name.rendered());
    put_text(&mut rest, &outer.unwrap_or_default());
    put_text(&mut rest, &shown(resolved.class));
    put_text(&mut rest, &shown(resolved.native));
    put_text(&mut rest, &class.text());
    let mut out = Vec::new();
    put_text(&mut out, &rest);
    out
}

fn shown(text: Option<Text>) -> Text {
    text.unwrap_or(b"?".to_vec())
}

/// A 4-byte length and so many bytes.
fn put_text(out: &mut Vec<u8>, text: &[u8]) {
    out.extend((text.len() as u32).to_be_bytes());
    out.extend(text);
}
