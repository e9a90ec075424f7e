//! Lengths of rows' paths and chains.
use super::{Census, LONGEST, Tables};
use crate::kind;
use std::collections::HashSet;

/// Counts the class reference of a row in package i.
pub fn count(census: &mut Census, tables: &Tables, i: usize, index: u64) {
    let (line, ends) = tables.outers(index);
    if ends && (1..=LONGEST).contains(&line.len()) {
        census.paths[line.len()] += 1;
    }
    // The packages of the classes, until no class has the key or one comes again.
    let mut chain = Vec::new();
    let mut seen = HashSet::new();
    let (mut package, mut at) = (i, index);
    while let Some((next, class)) = tables.class(package, at) {
        if !seen.insert((next, class.at)) {
            census.note("chain in a ring", true);
            return;
        }
        chain.push(next);
        (package, at) = (next, class.super_index);
    }
    let packages: HashSet<&usize> = chain.iter().collect();
    let several = chain.len() < 2 || packages.len() > 1;
    if kind(at) == 1 && several && chain.len() <= LONGEST {
        census.chains[chain.len()] += 1;
    }
}
