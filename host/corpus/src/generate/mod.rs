//! Corpora from a seed. `generate` makes large ones like a game's build, `dense` small ones in which everything meets,
//! `spelt` small ones about the spelling of names, `hashed` small ones with the hashes of their names, `natives` large script
//! blocks, `ladder` those that go step by step to a limit, `heavy` and `hostile` those that are meant to be slow; `sized` one
//! whose report has a wanted length. `description` makes what describes a header, `lengthy` one whose header has a wanted
//! length.
mod dense;
mod descriptions;
mod hashed;
pub mod heavy;
pub mod hostile;
pub mod ladder;
mod lengthy;
mod names;
mod objects;
mod packages;
mod parts;
mod sized;
mod spelling;
mod spelt;

pub use crate::random::Random;
pub use dense::{dense, dense_described};
pub use descriptions::{LONGEST_NAME, description, description_edges, filled};
pub use hashed::hashed;
pub use lengthy::{FILLINGS, Filling, lengthy};
pub use objects::natives;
pub use sized::{sized, sized_edges};
pub use spelt::spelt;

use crate::corpus;
use objects::Objects;
use packages::Plan;

/// From this size on a corpus holds a path of each length and a class chain of each length.
pub const LARGE: usize = 300_000;

/// An accepted corpus of about `bytes` bytes, a twentieth of them script objects.
pub fn generate(seed: u64, bytes: usize) -> Vec<u8> {
    let mut random = Random(seed);
    let large = bytes >= LARGE;
    let objects = Objects::new(&mut random, (bytes / 20 / 66).max(40), large);
    let plan = Plan {
        seed,
        // A package is some 3 kB: an estimate, from which imports are picked.
        total: (bytes / 2850).max(1) as u64,
        large,
        objects: &objects,
    };
    let mut packages = Vec::new();
    let mut size = objects.block.len();
    while size < bytes {
        let (id, package) = plan.package(&mut random, packages.len() as u64);
        let block = package.bytes();
        size += block.len() + 12;
        packages.push((id, block));
    }
    corpus(&objects.block, &packages)
}
