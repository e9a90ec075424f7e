//! Reports that are far longer than their corpora, measured before a byte is written.
use corpus::census::census;
use corpus::generate::{sized, sized_edges};

use crate::asked::Asked;
use crate::judged::Reports;

/// Accepted with a buffer of just that length, refused with a byte less.
fn has(asked: &mut Asked<Reports>, length: usize) {
    let corpus = sized(length as u64).bytes();
    let work = census(&corpus).work() as usize;
    let report = asked.ask(&corpus, work, length).expect("room for it");
    assert_eq!(report.len(), length);
    assert_eq!(asked.ask(&corpus, work, length - 1), Err((26, 0)));
}

#[test]
fn as_long_as_wanted() {
    let mut asked = Asked::new(5);
    sized_edges().for_each(|length| has(&mut asked, length as usize));
}
