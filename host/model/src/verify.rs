//! Document 02's `verify`: does a build have the hashes of its own names?
use answer::Answer;

use crate::call::{BASE, MOST, blocks, classes};
use crate::package::Package;
use crate::references::package_id;
use crate::script::Script;

/// "objects, paths resolved, hash matches, mismatches"
#[derive(Default)]
struct Counts {
    objects: u32,
    resolved: u32,
    matches: u32,
    mismatches: u32,
}

/// The output, or the refusal and the block. The report's questions but 25, at its limits; then 26. No work buffer counts;
/// `buffer` is the output buffer's length.
pub fn class_verify(corpus: &[u8], buffer: u64) -> Answer {
    let (script, packages) = &blocks(corpus)?;
    classes(packages, script, BASE)?;
    let output = output(&counts(script), packages);
    if output.len() as u64 > MOST.min(buffer) {
        return Err((26, 0));
    }
    Ok(output)
}

fn counts(script: &Script) -> Counts {
    let mut counts = Counts::default();
    for global in script.globals() {
        counts.objects += 1;
        if let Some(path) = script.path_of(global, BASE.objects) {
            counts.resolved += 1;
            if low_bits(path_hash(&path)) == low_bits(global) {
                counts.matches += 1;
            } else {
                counts.mismatches += 1;
            }
        }
    }
    counts
}

/// "The path has `.` and `:` turned to `/`, is lowered and hashed": wherever they stand in it.
fn path_hash(path: &[u8]) -> u64 {
    let slash = |byte: &u8| match byte {
        b'.' | b':' => b'/',
        other => *other,
    };
    package_id(&path.iter().map(slash).collect::<Vec<u8>>())
}

/// All but the top two of 64 bits.
fn low_bits(number: u64) -> u64 {
    number % (1 << 62)
}

/// "The output, in house form: the four counts, the package count, the flags".
fn output(counts: &Counts, packages: &[Package]) -> Vec<u8> {
    let numbers = [
        // the version byte, five numbers and the flags
        1 + 5 * 4 + packages.len() as u32,
        counts.objects,
        counts.resolved,
        counts.matches,
        counts.mismatches,
        packages.len() as u32,
    ];
    let mut output = numbers.map(u32::to_be_bytes).as_flattened().to_vec();
    output.insert(4, 1);
    output.extend(packages.iter().map(flag));
    output
}

/// "does the id of its rendered name equal the id in the corpus"
fn flag(package: &Package) -> u8 {
    u8::from(package_id(&package.name) == package.id)
}
