//! Corpora of written headers, read by the report's call, the reference and the model.
use corpus::census::census;
use corpus::generate::{dense_described, spelt};
use corpus::rows::{rows, sections};
use corpus::{Described, Description, corpus, script_block};

use crate::asked::Asked;
use crate::both::both;

/// Room for any report and any table.
const ROOM: usize = 1 << 20;

/// A corpus whose packages are described and written.
fn written(asked: &mut Asked, whole: &Described) -> Vec<u8> {
    let mut header = |package| {
        let bytes = Description::of(package).bytes();
        let length = model::class_header(&bytes, u64::MAX).map_or(0, |header| header.len());
        asked.call(&bytes, length).expect("it can be written")
    };
    let packages = whole.packages.iter();
    let packages: Vec<(u64, Vec<u8>)> = packages
        .map(|(id, package)| (*id, header(package)))
        .collect();
    corpus(&script_block(&whole.names, &whole.entries), &packages)
}

/// What was read of written corpora.
#[derive(Default)]
struct Counted {
    corpora: u64,
    with_rows: u64,
    rows: u64,
    refused: u64,
}

impl Counted {
    /// Call, oracle and model about a corpus of written headers; and the report is the one of the corpus that it was made of.
    fn read(&mut self, asked: &mut Asked, whole: &Described) {
        let corpus = written(asked, whole);
        self.corpora += 1;
        let expected = both(&corpus, ROOM as u64, ROOM as u64);
        let first = both(&whole.bytes(), ROOM as u64, ROOM as u64);
        assert!(expected == first, "another report than before");
        let (mut work, mut out) = (vec![0xa5; ROOM], vec![0xa5; ROOM]);
        let number = report::class_report(&corpus, 64, 65, &mut work, &mut out);
        assert_eq!(number, answer::number(&expected));
        let report = match expected {
            Ok(report) => report,
            Err((refusal, _)) => {
                assert_eq!(refusal, 24);
                self.refused += 1;
                return;
            }
        };
        assert!(out[..report.len()] == report);
        let rows: usize = sections(&report)
            .iter()
            .map(|section| rows(section).len())
            .sum();
        assert_eq!(rows as u64, census(&corpus).candidates);
        self.rows += rows as u64;
        self.with_rows += u64::from(rows > 0);
    }
}

#[test]
fn written_headers_are_read() {
    let mut asked = Asked::new(11);
    let mut counted = Counted::default();
    for seed in 600_000..603_000 {
        counted.read(&mut asked, &dense_described(seed));
        counted.read(&mut asked, &spelt(seed));
    }
    let Counted {
        corpora,
        with_rows,
        rows,
        refused,
    } = counted;
    println!(
        "{corpora} corpora of written headers, {with_rows} of them with {rows} rows, {refused} refused by 24"
    );
    assert!(corpora == 6_000 && with_rows > 4_000 && rows > 20_000);
}
