//! A census of an accepted corpus: how often each feature of document 01 occurs in it. It reads for itself what a path,
//! a class and a chain are, plainly and without limits.
mod accents;
mod chains;
mod features;
mod texts;

use crate::decode::{Corpus, Export, Package, decode};
use crate::kind;
use crate::name;
use std::collections::{BTreeMap, HashMap};
use std::fmt;

pub use features::FEATURES;

/// Paths and chains are counted by length up to this.
pub const LONGEST: usize = 66;

#[derive(Debug)]
pub struct Census {
    pub features: BTreeMap<&'static str, u64>,
    /// rows whose class is a script object with a path of so many objects
    pub paths: [u64; LONGEST + 1],
    /// rows with a chain of so many classes to a script object, from two on in several packages
    pub chains: [u64; LONGEST + 1],
    pub objects: u64,
    pub classes: u64,
    pub candidates: u64,
}

/// What is looked up while counting.
struct Tables<'a> {
    corpus: &'a Corpus,
    /// script entries by global index
    objects: HashMap<u64, usize>,
    /// classes by key, with their package's number
    classes: HashMap<(u64, u64), (usize, Export)>,
    /// the names of packages, by what they could be mistaken for
    mistaken: HashMap<String, String>,
}

pub fn census(bytes: &[u8]) -> Census {
    let corpus = decode(bytes);
    let tables = Tables::new(&corpus);
    let mut census = Census {
        features: FEATURES.map(|f| (f, 0)).into(),
        paths: [0; LONGEST + 1],
        chains: [0; LONGEST + 1],
        objects: corpus.script.entries.len() as u64,
        classes: tables.classes.len() as u64,
        candidates: 0,
    };
    texts::count(&mut census, &corpus);
    features::count(&mut census, &tables);
    for (i, export) in candidates(&corpus) {
        census.candidates += 1;
        chains::count(&mut census, &tables, i, export.class);
        accents::count(&mut census, &tables, i, export.class);
    }
    census
}

impl Census {
    /// The least work buffer that question 25 accepts.
    pub fn work(&self) -> u64 {
        64 * (self.objects + self.classes + self.candidates)
    }

    fn add(&mut self, feature: &'static str, times: u64) {
        *self.features.get_mut(feature).expect("a listed feature") += times;
    }

    fn note(&mut self, feature: &'static str, there: bool) {
        self.add(feature, u64::from(there));
    }

    /// Features, path lengths and chain lengths that never occurred.
    pub fn missing(&self) -> Vec<String> {
        let features = self.features.iter().filter(|(_, n)| **n == 0);
        let without = |name: &'static str, from: usize, counts: &[u64]| -> Vec<String> {
            (from..=LONGEST)
                .filter(|i| counts[*i] == 0)
                .map(|i| format!("{name} of {i}"))
                .collect()
        };
        features
            .map(|(f, _)| f.to_string())
            .chain(without("path", 1, &self.paths))
            .chain(without("chain", 0, &self.chains))
            .collect()
    }

    /// Adds another corpus's counts, all of them.
    pub fn join(&mut self, other: &Census) {
        let Census {
            features,
            paths,
            chains,
            objects,
            classes,
            candidates,
        } = other;
        for (feature, n) in features {
            self.add(feature, *n);
        }
        add_each(&mut self.paths, paths);
        add_each(&mut self.chains, chains);
        self.objects += objects;
        self.classes += classes;
        self.candidates += candidates;
    }
}

impl fmt::Display for Census {
    /// A line for each count; of the lengths of paths and of chains the rarest.
    fn fmt(&self, f: &mut fmt::Formatter) -> fmt::Result {
        let Census {
            objects,
            classes,
            candidates,
            ..
        } = self;
        writeln!(
            f,
            "{objects} script objects, {classes} classes, {candidates} candidates"
        )?;
        for (feature, n) in &self.features {
            writeln!(f, "{feature}: {n}")?;
        }
        let rarest = |counts: &[u64]| counts.iter().min().copied().unwrap_or_default();
        let (path, chain) = (rarest(&self.paths[1..]), rarest(&self.chains));
        write!(
            f,
            "rows with each path of 1 to {LONGEST} objects: {path} or more; with each chain of 0 to {LONGEST} classes: {chain} or more"
        )
    }
}

fn add_each(to: &mut [u64], from: &[u64]) {
    to.iter_mut().zip(from).for_each(|(sum, n)| *sum += n);
}

/// Every export with its package's number.
fn exports(corpus: &Corpus) -> impl Iterator<Item = (usize, &Export)> {
    let packages = corpus.packages.iter().enumerate();
    packages.flat_map(|(i, p)| p.exports.iter().map(move |e| (i, e)))
}

fn candidates(corpus: &Corpus) -> impl Iterator<Item = (usize, &Export)> {
    exports(corpus).filter(|(i, e)| candidate(&corpus.packages[*i], e).is_some())
}

impl<'a> Tables<'a> {
    fn new(corpus: &'a Corpus) -> Tables<'a> {
        let entries = corpus.script.entries.iter().enumerate();
        let mut tables = Tables {
            corpus,
            objects: entries.map(|(i, e)| (e.global, i)).collect(),
            classes: HashMap::new(),
            mistaken: HashMap::new(),
        };
        for package in &corpus.packages {
            let name = package.batch.rendered(package.name);
            (tables.mistaken).insert(accents::mistaken(&name), name);
        }
        for (i, export) in exports(corpus) {
            if tables.is_class(export) {
                let key = (corpus.packages[i].id, export.hash);
                tables.classes.insert(key, (i, *export));
            }
        }
        tables
    }

    /// The script entries from an index outwards, and whether they end in a null index; a ring stops at 99.
    fn outers(&self, index: u64) -> (Vec<usize>, bool) {
        let mut line = Vec::new();
        let mut at = index;
        while let Some(i) = self.objects.get(&at).filter(|_| line.len() < 99) {
            line.push(*i);
            at = self.corpus.script.entries[*i].outer;
        }
        (line, kind(at) == 3)
    }

    fn is_class(&self, export: &Export) -> bool {
        let (line, ends) = self.outers(export.class);
        let known = ends && (1..=65).contains(&line.len());
        let script = &self.corpus.script;
        known
            && kind(export.super_index) != 3
            && export.hash != 0
            && (script.batch.rendered(script.entries[line[0]].name)).ends_with("Class")
    }

    /// The class that a reference in package i means, and its package.
    fn class(&self, i: usize, index: u64) -> Option<(usize, Export)> {
        self.classes.get(&self.key(i, index)?).copied()
    }

    /// The key that a reference in package i means.
    fn key(&self, i: usize, index: u64) -> Option<(u64, u64)> {
        let package = &self.corpus.packages[i];
        match kind(index) {
            0 => (package.exports.get(index as usize)).map(|e| (package.id, e.hash)),
            2 => {
                let imported = (index >> 32 & 0x3fff_ffff) as usize;
                let hash = package.hashes.get(index as u32 as usize)?;
                let known = imported < package.numbers.len();
                known.then(|| (name::id(&package.imported(imported)), *hash))
            }
            _ => None,
        }
    }
}

/// An export's candidate kind.
fn candidate(package: &Package, export: &Export) -> Option<u8> {
    let base = |e: &Export| &package.batch.names[e.name.0].text;
    if base(export).ends_with("_GEN_VARIABLE") {
        return Some(1);
    }
    let outer = package.outer(export)?;
    base(outer).starts_with("Default__").then_some(2)
}
