//! The report call against the whole of the reference: on generated corpora of several sizes and on hostile shapes.
use std::process::ExitCode;

use answer::{Answer, Refusal};
use bench::Contest;
use bench::race::{Needs, Sides};
use corpus::generate::generate;
use corpus::generate::hostile::SHAPES;
use oracle::report::{parts, report as write};
use oracle::stages::{headers, scan, script, script_count};

const USAGE: &str = "usage: report [--rounds NUMBER] [--rows NUMBER] [--only WORDS]
Times the call and the reference on generated corpora of 1, 10 and 100 MB, best of 9 rounds or more, and on hostile shapes
of 100,000 rows, best of half as many. With --only, those whose names have the words in them.";

const ABOUT: &str = "\
reference: frame, parse, scan, resolve, write; ours: the call, with the least work buffer that 25 accepts;
  beside them a copy of corpus and report, below which no call can be";

/// The whole of the reference: frame, parse, scan, resolve, write.
fn reference(corpus: &[u8], most: u64) -> Answer {
    let parts = parts(corpus).map_err(|number| (number, 0))?;
    let script = script(&parts)?;
    let headers = headers(&parts)?;
    let scanned = scan(&parts, &headers, &script)?;
    write(&parts, &headers, &script, &scanned, most)
}

/// The least with which a corpus is accepted.
fn needs(corpus: &[u8]) -> Result<Needs, Refusal> {
    let parts = parts(corpus).map_err(|number| (number, 0))?;
    let headers = headers(&parts)?;
    let scanned = scan(&parts, &headers, &script(&parts)?)?;
    let records = script_count(&parts) + scanned.classes.len() + scanned.rows();
    Ok(Needs {
        work: 64 * records,
        output: reference(corpus, u64::MAX)?.len(),
    })
}

fn copy(corpus: &[u8], report: &[u8], room: &mut [u8]) {
    let (first, second) = room.split_at_mut(corpus.len());
    first.copy_from_slice(corpus);
    second.copy_from_slice(report);
}

fn main() -> ExitCode {
    let contest = Contest {
        name: "report",
        usage: USAGE,
        about: ABOUT,
        generated: &[("generated", |bytes| generate(1, bytes))],
        shapes: &SHAPES,
        no_room: true,
        needs,
        sides: Sides {
            reference,
            ours: |corpus, work, report| report::class_report(corpus, 64, 65, work, report),
            beside_is: "memcpy",
            beside: copy,
        },
    };
    contest.run()
}
