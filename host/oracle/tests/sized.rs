//! Corpora whose reports have a wanted length have it: those of the command `longest` are made in the same way.
mod both;

use both::both;
use corpus::generate::{sized, sized_edges};

/// Accepted with a buffer of just that length, refused with a byte less.
fn has(length: u64) {
    let corpus = sized(length).bytes();
    let report = both(&corpus, u64::MAX, length).expect("room for it");
    assert_eq!(report.len() as u64, length);
    assert_eq!(both(&corpus, u64::MAX, length - 1), Err((26, 0)));
}

#[test]
fn as_long_as_wanted() {
    sized_edges().for_each(has);
}
