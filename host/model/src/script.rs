//! The script block and the paths of its objects.
use std::collections::HashMap;

use answer::Refusal;

use crate::names::{Mapped, name_batch};
use crate::reader::Reader;
use crate::text::Text;

/// An index's kind: its top two bits.
#[derive(Clone, Copy, PartialEq, Eq)]
pub enum Kind {
    Export,
    Script,
    PackageImport,
    Null,
}

pub fn kind(index: u64) -> Kind {
    match index >> 62 {
        0 => Kind::Export,
        1 => Kind::Script,
        2 => Kind::PackageImport,
        _ => Kind::Null,
    }
}

struct Object {
    rendered: Text,
    outer: u64,
}

/// The block's objects by global index.
pub struct Script {
    objects: HashMap<u64, Object>,
}

/// The script block, which is block 1.
pub fn script_block(bytes: &[u8]) -> Result<Script, Refusal> {
    let r = &mut Reader::new(bytes, 1);
    let names = name_batch(r)?;
    let count = r.i32()?;
    r.ask(count >= 0, 8)?;
    r.ask(32 * i64::from(count) <= r.left() as i64, 9)?;
    let mut objects = HashMap::new();
    for _ in 0..count {
        let name = Mapped::read(r)?;
        let global = r.u64()?;
        let outer = r.u64()?;
        let _class_default_object = r.u64()?;
        let rendered = name.name(r, &names)?.rendered();
        r.ask(kind(global) == Kind::Script, 11)?;
        let before = objects.insert(global, Object { rendered, outer });
        r.ask(before.is_none(), 12)?;
    }
    r.ask(r.left() == 0, 13)?;
    Ok(Script { objects })
}

impl Script {
    pub fn count(&self) -> usize {
        self.objects.len()
    }

    /// The objects' global indices.
    pub fn globals(&self) -> impl Iterator<Item = u64> {
        self.objects.keys().copied()
    }

    /// The path of the object with this index, of at most `limit` objects, all known.
    pub fn path_of(&self, index: u64, limit: u32) -> Option<Text> {
        self.path_and_depth(index, limit).map(|(path, _)| path)
    }

    /// Built by recursion from the innermost object: the outer's path, then its own name.
    fn path_and_depth(&self, index: u64, left: u32) -> Option<(Text, u32)> {
        if kind(index) == Kind::Null {
            return Some((Vec::new(), 0));
        }
        let object = self.objects.get(&index).filter(|_| left > 0)?;
        let (mut path, depth) = self.path_and_depth(object.outer, left - 1)?;
        match depth {
            0 => (),
            2 => path.push(b':'),
            _ => path.push(b'.'),
        }
        path.extend(&object.rendered);
        Some((path, depth + 1))
    }
}
