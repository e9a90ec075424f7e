//! A row's bytes, and the known flags, which are not the reference's.
use std::iter::successors;

use crate::scan::{CLASS_KINDS, Candidate, ClassRef, ClassTable, Resolved};
use crate::script::ScriptObjects;

/// How many classes a chain may look up.
const LOOKUPS: usize = 64;

/// Appends a row.
pub fn put_row(
    out: &mut Vec<u8>,
    candidate: &Candidate,
    resolved: &Resolved,
    script: &ScriptObjects,
    classes: &ClassTable,
) {
    let class_kind = class_kind(resolved);
    let class_known = matches!(class_kind, 0 | 2 | 4);
    let native_known = class_known
        && (resolved.native_class != "?" || has_native(&candidate.class, script, classes));
    let start = out.len();
    out.extend([0; 4]);
    out.extend([
        1,
        kind(candidate),
        u8::from(candidate.numbered),
        class_kind,
        u8::from(class_known),
        u8::from(native_known),
    ]);
    put_text(out, &candidate.instance);
    put_text(out, &candidate.export);
    put_text(out, &candidate.outer);
    put_text(out, &resolved.class);
    put_text(out, &resolved.native_class);
    put_text(out, &resolved.class_ref);
    let length = (out.len() - start - 4) as u32;
    out[start..start + 4].copy_from_slice(&length.to_be_bytes());
}

/// A 4-byte length and the UTF-8.
pub fn put_text(out: &mut Vec<u8>, text: &str) {
    out.extend((text.len() as u32).to_be_bytes());
    out.extend(text.as_bytes());
}

fn kind(candidate: &Candidate) -> u8 {
    match candidate.kind {
        "gen_variable" => 1,
        "cdo_subobject" => 2,
        other => panic!("no candidate kind for {other}"),
    }
}

fn class_kind(resolved: &Resolved) -> u8 {
    let kind = CLASS_KINDS.iter().position(|k| *k == resolved.class_kind);
    kind.unwrap_or_else(|| panic!("no class kind for {}", resolved.class_kind)) as u8
}

/// The key that a reference means, if it means a class.
fn key(reference: &ClassRef) -> Option<(u64, u64)> {
    match *reference {
        ClassRef::Local(id, hash, _) | ClassRef::Package(id, _, hash) => Some((id, hash)),
        ClassRef::Script(_) | ClassRef::Null | ClassRef::Bad(_) => None,
    }
}

/// Whether a native class of `?` was found: the reference's text can't say, since `?` may be a name. So the row's chain is
/// walked once more, from its class reference to the super of each class looked up, as far as the limit lets it.
fn has_native(from: &ClassRef, script: &ScriptObjects, classes: &ClassTable) -> bool {
    let chain = successors(Some(from), |at| {
        let class = classes.get(&key(at)?)?;
        Some(&class.super_ref)
    });
    match chain.take(1 + LOOKUPS).last() {
        Some(ClassRef::Script(index)) => script.path_of(*index).is_some(),
        _ => false,
    }
}
