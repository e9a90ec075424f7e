//! A described corpus given the hashes of its names: global indices from paths, ids from package names.
use crate::name::{path_index, rendered};
use crate::package::place;
use crate::{Described, Package, ScriptEntry, kind};
use std::collections::{HashMap, HashSet};

/// More objects than a path ever has; a ring has no end.
const NO_PATH: usize = 200;

/// A script object with its outers.
#[derive(Debug)]
pub struct ObjectPath {
    /// rendered, the outermost first
    pub names: Vec<String>,
    /// the innermost name without its instance number
    pub base: String,
}

impl ObjectPath {
    /// `:` before the third name, `.` before every other but the first.
    pub fn text(&self) -> String {
        let mut text = String::new();
        for (depth, name) in self.names.iter().enumerate() {
            text.push_str(match depth {
                0 => "",
                2 => ":",
                _ => ".",
            });
            text.push_str(name);
        }
        text
    }
}

impl Described {
    /// Gives every script object the hash of its path for a global index, and every package the id of its name.
    #[must_use]
    pub fn hashed(mut self) -> Described {
        self.index_objects(|path| path_index(&path.text()));
        self.name_packages(|_, base, number| crate::name::id(&rendered(base, number)));
        self
    }

    /// Gives each script object that has a path, of however many objects, the global index that is chosen for it, wherever
    /// its own stands; unless another object has that.
    pub fn index_objects(&mut self, mut choose: impl FnMut(&ObjectPath) -> u64) {
        let mut taken: HashSet<u64> = self.entries.iter().map(|entry| entry.global).collect();
        let mut moved = HashMap::new();
        for (global, path) in self.paths() {
            let chosen = path.map(|path| choose(&path));
            let free = chosen.filter(|index| taken.insert(*index));
            moved.insert(global, free.unwrap_or(global));
        }
        for index in self.indices() {
            *index = *moved.get(index).unwrap_or(index);
        }
    }

    /// Every index of the corpus that may be a script object's.
    fn indices(&mut self) -> impl Iterator<Item = &mut u64> {
        let entries = self.entries.iter_mut();
        let exports = (self.packages.iter_mut()).flat_map(|(_, package)| &mut package.exports);
        let own = entries.flat_map(|e| [&mut e.global, &mut e.outer]);
        own.chain(exports.flat_map(|e| [&mut e.outer, &mut e.class, &mut e.super_index]))
    }

    /// The script objects by global index, each with its outers where they end in a null index.
    pub fn paths(&self) -> impl Iterator<Item = (u64, Option<ObjectPath>)> {
        let places = self.entries.iter().enumerate();
        let places: HashMap<u64, usize> = places.map(|(i, e)| (e.global, i)).collect();
        let each = self.entries.iter();
        each.map(move |entry| (entry.global, self.path(&places, entry)))
    }

    fn path(&self, places: &HashMap<u64, usize>, from: &ScriptEntry) -> Option<ObjectPath> {
        let mut names = vec![self.rendered(from)];
        let mut at = from.outer;
        while kind(at) != 3 {
            let entry = &self.entries[*places.get(&at)?];
            names.push(self.rendered(entry));
            at = entry.outer;
            if names.len() == NO_PATH {
                return None;
            }
        }
        names.reverse();
        let base = self.base(from);
        Some(ObjectPath { names, base })
    }

    fn base(&self, entry: &ScriptEntry) -> String {
        self.names[place(entry.name) as usize].text()
    }

    fn rendered(&self, entry: &ScriptEntry) -> String {
        rendered(&self.base(entry), entry.number)
    }

    /// Gives each package the id that is chosen for the one that it has, its name and its instance number.
    pub fn name_packages(&mut self, mut choose: impl FnMut(u64, &str, u32) -> u64) {
        for (id, package) in &mut self.packages {
            let Package { names, name, .. } = package;
            *id = choose(*id, &names[place(name.0) as usize].text(), name.1);
        }
    }
}
