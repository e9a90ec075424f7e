//! The call: the questions in order, then the report.
use std::collections::HashMap;

use answer::{Answer, Refusal};

use crate::classes::{Candidate, candidate, is_class};
use crate::frame::frame;
use crate::package::{Package, package_block};
use crate::report::{row, section_head};
use crate::resolve::{Classes, World};
use crate::script::{Script, script_block};

/// How many class lookups a chain and how many objects a path may have.
#[derive(Debug, Clone, Copy)]
pub struct Limits {
    pub lookups: u32,
    pub objects: u32,
}

/// The limits of document 01.
pub const BASE: Limits = Limits {
    lookups: 64,
    objects: 65,
};

/// The longest report: its 4-byte length counts what follows.
pub const MOST: u64 = 4_294_967_299;

/// The report, or the refusal and the block; `work` and `buffer` are the two buffers' lengths.
pub fn class_report(corpus: &[u8], work: u64, buffer: u64) -> Answer {
    class_report_within(BASE, corpus, work, buffer)
}

/// The call with limits of its own. Question 29: 1 to 64 lookups, 1 to 65 objects?
pub fn class_report_within(limits: Limits, corpus: &[u8], work: u64, buffer: u64) -> Answer {
    if !(1..=64).contains(&limits.lookups) || !(1..=65).contains(&limits.objects) {
        return Err((29, 0));
    }
    let (script, packages) = &blocks(corpus)?;
    let classes = classes(packages, script, limits)?;
    let candidates: Vec<Vec<Candidate>> = packages.iter().map(candidates).collect();
    let rows: usize = candidates.iter().map(Vec::len).sum();
    if work < 64 * (script.count() + classes.len() + rows) as u64 {
        return Err((25, 0));
    }
    let world = World {
        script,
        classes,
        limits,
    };
    report(&world, packages, &candidates, MOST.min(buffer))
}

/// The script block and the packages: questions 1, 2 and those of the blocks.
pub fn blocks(corpus: &[u8]) -> Result<(Script, Vec<Package>), Refusal> {
    let frame = frame(corpus)?;
    let script = script_block(frame.script)?;
    let mut packages = Vec::new();
    for (block, (id, bytes)) in (2..).zip(frame.packages) {
        packages.push(package_block(bytes, id, block)?);
    }
    Ok((script, packages))
}

/// The classes by key; question 24: no class key twice?
pub fn classes<'a>(
    packages: &'a [Package],
    script: &Script,
    limits: Limits,
) -> Result<Classes<'a>, Refusal> {
    let mut classes = HashMap::new();
    for package in packages {
        for export in &package.exports {
            if !is_class(script, export, limits.objects) {
                continue;
            }
            let key = (package.id, export.hash);
            if classes.insert(key, (package, export)).is_some() {
                return Err((24, package.block));
            }
        }
    }
    Ok(classes)
}

fn candidates(package: &Package) -> Vec<Candidate<'_>> {
    let of = |export| candidate(package, export);
    package.exports.iter().filter_map(of).collect()
}

/// The report, unless it is longer than `most` (question 26). As that is asked last, the first byte too many settles it.
fn report(world: &World, packages: &[Package], candidates: &[Vec<Candidate>], most: u64) -> Answer {
    // the length of the rest, told at the end; the version; the package count
    let mut report = vec![0, 0, 0, 0, 1];
    report.extend((packages.len() as u32).to_be_bytes());
    for (package, candidates) in packages.iter().zip(candidates) {
        report.extend(section_head(package, candidates.len()));
        for candidate in candidates {
            report.extend(row(world, package, candidate));
            if report.len() as u64 > most {
                return Err((26, 0));
            }
        }
    }
    if report.len() as u64 > most {
        return Err((26, 0));
    }
    let (length, rest) = report.split_at_mut(4);
    length.copy_from_slice(&(rest.len() as u32).to_be_bytes());
    Ok(report)
}
