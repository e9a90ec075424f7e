//! The script block's objects, and their outers.
use std::collections::HashMap;

use super::index::{Kind, kind};
use super::names::batch;
use super::reader::Reader;
use crate::Name;

struct Object {
    name: String,
    outer: u64,
}

/// The objects by global index.
pub(super) struct Objects(HashMap<u64, Object>);

/// An object and its outers, the object itself first.
#[derive(Debug, Clone, PartialEq, Eq)]
pub struct Line {
    /// Their names, with instance numbers.
    pub names: Vec<String>,
    /// Where it ends.
    pub end: LineEnd,
}

/// Where a line of outers ends.
#[derive(Debug, Clone, Copy, PartialEq, Eq)]
pub enum LineEnd {
    /// In a null index: the path is known.
    Null,
    /// In an index that no object has.
    Missing(u64),
    /// It comes back to the object with this number in the line, from 0.
    Ring(usize),
    /// It has more objects than the object limit allows; so many are listed.
    TooDeep,
}

impl Line {
    /// The path, where it is known: outermost first, `:` before the third, `.` before every other but the first.
    pub fn path(&self) -> Option<String> {
        if self.end != LineEnd::Null {
            return None;
        }
        let mut path = String::new();
        for (depth, name) in self.names.iter().rev().enumerate() {
            path.push_str(match depth {
                0 => "",
                2 => ":",
                _ => ".",
            });
            path.push_str(name);
        }
        Some(path)
    }
}

impl Objects {
    pub(super) fn read(block: &[u8]) -> Option<Objects> {
        let mut r = Reader::new(block);
        let names = batch(&mut r)?;
        let count = r.size()?;
        let mut objects = HashMap::new();
        for _ in 0..count {
            let name = Name::read(&mut r)?;
            let (global, outer, _default_object) = (r.u64()?, r.u64()?, r.u64()?);
            let name = name.is_in(&names).then(|| name.rendered(&names))?;
            objects.insert(global, Object { name, outer });
        }
        Some(Objects(objects))
    }

    /// Each object's index, and its own name.
    pub(super) fn each(&self) -> impl Iterator<Item = (u64, &str)> {
        self.0.iter().map(|(index, object)| (*index, &*object.name))
    }

    /// The object with this index, and its outers, as far as a path may go.
    pub(super) fn line(&self, index: u64, most: u32) -> Line {
        let mut seen = Vec::new();
        let mut names = Vec::new();
        let mut at = index;
        let end = loop {
            if kind(at) == Kind::Null {
                break LineEnd::Null;
            }
            if let Some(place) = seen.iter().position(|index| *index == at) {
                break LineEnd::Ring(place);
            }
            let Some(object) = self.0.get(&at) else {
                break LineEnd::Missing(at);
            };
            if names.len() == most as usize {
                break LineEnd::TooDeep;
            }
            seen.push(at);
            names.push(object.name.clone());
            at = object.outer;
        };
        Line { names, end }
    }
}
