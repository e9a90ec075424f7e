//! The longest report that there can be, and one of a byte more, asked of the oracle, of the model and of the call. Each
//! makes its report whole, some 4.3 GB, so this is no part of the gate.
use std::process::ExitCode;

use answer::Answer;
use bench::told::{self, Told};
use corpus::census::census;
use corpus::generate::sized;

const USAGE: &str = "usage: longest (it takes no arguments)
Asks oracle, model and call about a report of 4,294,967,299 bytes and about one above, one after the other. It wants some
5 GB of memory and a minute or two.";

/// "Report at most 4,294,967,299 bytes": said here once more, beside what oracle and model each have.
const MOST: u64 = 4_294_967_299;

type Call = fn(&[u8], u64, u64) -> Answer;

const JUDGES: [(&str, Call); 3] = [
    ("oracle", oracle::report::class_report),
    ("model", model::class_report),
    ("call", call),
];

/// The call with buffers of these lengths.
fn call(corpus: &[u8], work: u64, buffer: u64) -> Answer {
    let mut report = vec![0; buffer as usize];
    let number = report::class_report(corpus, 64, 65, &mut vec![0; work as usize], &mut report);
    if let Some(refusal) = answer::refusal(number) {
        return Err(refusal);
    }
    report.truncate(number as usize);
    Ok(report)
}

/// Asks all about a corpus with such a report, with buffers that just hold it; whether they say the same, and rightly.
fn ask(report: u64) -> bool {
    let described = sized(report);
    let corpus = described.bytes();
    let rows = described.packages[0].1.exports.len();
    println!(
        "a report of {report} bytes, of a corpus of {} bytes with {rows} rows",
        corpus.len()
    );
    let work = census(&corpus).work();
    let told =
        JUDGES.map(|(judge, call)| told::ask(judge, "report", || call(&corpus, work, report)));
    right(report, &told[0]) && told.iter().all(|other| *other == told[0])
}

fn right(report: u64, told: &Told) -> bool {
    match told {
        Ok((length, _)) => report <= MOST && *length == report,
        Err(refusal) => report > MOST && *refusal == (26, 0),
    }
}

fn main() -> ExitCode {
    if std::env::args().len() > 1 {
        eprintln!("{USAGE}");
        return ExitCode::from(2);
    }
    println!("processor time");
    // Both are asked about, whatever the first gives.
    let right = [MOST, MOST + 1].map(ask);
    if right == [true, true] {
        println!("as document 01 says");
        return ExitCode::SUCCESS;
    }
    println!("not as document 01 says");
    ExitCode::FAILURE
}
