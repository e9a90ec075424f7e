//! Lists whose items are named by their number or by themselves.
use std::collections::HashMap;
use std::hash::Hash;

use classreport::ImportedName;

/// A list, and the number of each item, from 0; of one that comes again the first.
pub struct Numbered<T> {
    pub all: Vec<T>,
    /// how many of them were not added
    pub given: usize,
    first: HashMap<T, u32>,
}

impl<T: Clone + Eq + Hash> Numbered<T> {
    pub fn of(all: Vec<T>) -> Numbered<T> {
        let mut first = HashMap::new();
        for (number, item) in (0..).zip(&all) {
            first.entry(item.clone()).or_insert(number);
        }
        let given = all.len();
        Numbered { all, given, first }
    }

    /// The item's number. One that isn't there is added behind the others.
    pub fn number(&mut self, item: T) -> u32 {
        let next = self.all.len() as u32;
        let number = *self.first.entry(item.clone()).or_insert(next);
        if number == next {
            self.all.push(item);
        }
        number
    }

    /// The item with this number, where it is the first of its kind, so that it can stand for its number.
    pub fn told(&self, number: u32) -> Option<&T> {
        let item = self.all.get(number as usize)?;
        (self.first.get(item) == Some(&number)).then_some(item)
    }
}

/// The lists of a description.
pub struct Lists {
    pub texts: Numbered<String>,
    pub hashes: Numbered<u64>,
    pub imported: Numbered<ImportedName>,
}

impl Lists {
    pub fn of(texts: Vec<String>, hashes: Vec<u64>, imported: Vec<ImportedName>) -> Lists {
        Lists {
            texts: Numbered::of(texts),
            hashes: Numbered::of(hashes),
            imported: Numbered::of(imported),
        }
    }
}
