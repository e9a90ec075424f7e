//! Resolution: from a class reference to the class and its native class.
use std::collections::HashMap;

use crate::call::Limits;
use crate::classes::class_path;
use crate::package::{Export, Package};
use crate::references::{Key, Reference, reference};
use crate::script::Script;
use crate::text::Text;

/// Every class with its package, by key.
pub type Classes<'a> = HashMap<Key, (&'a Package, &'a Export)>;

/// All that a reference is resolved against.
pub struct World<'a> {
    pub script: &'a Script,
    pub classes: Classes<'a>,
    pub limits: Limits,
}

pub struct Resolved {
    pub class_kind: u8,
    pub class: Option<Text>,
    pub native: Option<Text>,
}

pub fn resolve(world: &World, class: &Reference) -> Resolved {
    match class {
        Reference::Script(index) => {
            let path = world.script.path_of(*index, world.limits.objects);
            Resolved {
                class_kind: u8::from(path.is_none()),
                class: path.clone(),
                native: path,
            }
        }
        Reference::Import(key, _) => defined(world, class, key, 2),
        Reference::Export(key, _) => defined(world, class, key, 4),
        Reference::Null => unknown(6),
        Reference::Bad(_) => unknown(7),
    }
}

/// A class that some package defines: kind `found`, or the next where none has the key.
fn defined(world: &World, class: &Reference, key: &Key, found: u8) -> Resolved {
    let Some((package, export)) = world.classes.get(key) else {
        return unknown(found + 1);
    };
    Resolved {
        class_kind: found,
        class: Some(class_path(package, export)),
        native: native(world, class, world.limits.lookups),
    }
}

fn unknown(class_kind: u8) -> Resolved {
    Resolved {
        class_kind,
        class: None,
        native: None,
    }
}

/// The path of the script object that the chain from a reference leads to, within so many class lookups.
fn native(world: &World, from: &Reference, lookups: u32) -> Option<Text> {
    match from {
        Reference::Script(index) => world.script.path_of(*index, world.limits.objects),
        Reference::Import(key, _) | Reference::Export(key, _) if lookups > 0 => {
            let (package, class) = world.classes.get(key)?;
            native(world, &reference(package, class.super_index), lookups - 1)
        }
        _ => None,
    }
}
