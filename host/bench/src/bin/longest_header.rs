//! The longest headers that there can be, and those of a byte more, asked of the call, of the model and of the reference. A
//! header is some 2 GB and its description 1 GB, so this is no part of the gate.
use std::process::ExitCode;

use answer::Answer;
use bench::told;
use clock::timed;
use corpus::generate::{FILLINGS, Filling, lengthy};
use oracle::zen::parse_package_header;

const USAGE: &str = "usage: longest_header (it takes no arguments)
Asks the call about headers of 2,147,483,647 bytes, of one more, and of some 4 GB, made of names, exports, hashes and
imported names; and model and reference about those of long names. It wants some 5 GB of memory and a few minutes.";

/// "a header above 2,147,483,647 bytes": said here once more, beside what the model has.
const MOST: u64 = 2_147_483_647;

/// Above what 32 bits count: a sum that wraps would be small.
const WRAPPED: u64 = (1 << 32) + 1_000;

/// The filling that model and reference are asked about too: of few entries, which they list.
const LISTED: &str = "long wide names";

/// The call with a buffer of this length.
fn call(description: &[u8], room: u64) -> Answer {
    let mut header = vec![0; room as usize];
    let number = report::class_header(description, &mut header);
    if let Some(refusal) = answer::refusal(number) {
        return Err(refusal);
    }
    header.truncate(number as usize);
    Ok(header)
}

type Judge = fn(&[u8], u64) -> Answer;

/// A header of this many bytes: with no room, with a byte too little, and with just enough; whether all is right.
fn right(filling: &Filling, header: u64) -> bool {
    let description = lengthy(filling, header);
    let (name, length) = (filling.name, description.len());
    println!("a header of {header} bytes by {name}, of a description of {length} bytes");
    let rooms = match header {
        ..=MOST => vec![0, header - 1, header],
        _ => vec![0, 90, MOST],
    };
    let each = rooms.into_iter().map(|room| {
        let ask = |judge: &str, of: Judge| {
            let judge = format!("{judge}, room {room}");
            told::ask(&judge, "header", || of(&description, room))
        };
        let told = ask("call", call);
        let same = name != LISTED || ask("model", model::class_header) == told;
        let expected = match told {
            Ok((length, _)) => header <= MOST && room >= header && length == header,
            Err((27, 0)) => header > MOST,
            Err((28, 0)) => header <= MOST && room < header,
            Err(_) => false,
        };
        same && expected
    });
    // All are asked about, whatever the first gives.
    let all = each.fold(true, |all, one| all & one);
    all && (name != LISTED || header > MOST || is_read(&description, header))
}

/// Whether the reference reads what is written.
fn is_read(description: &[u8], room: u64) -> bool {
    let header = call(description, room).unwrap_or_default();
    let (read, time) = timed(|| parse_package_header(&header));
    let names = read.as_ref().map(|read| read.names.len());
    let seconds = time.as_secs_f64();
    println!("  reference, names read from it: {names:?}; {seconds:.1} s");
    read.is_ok()
}

fn main() -> ExitCode {
    if std::env::args().len() > 1 {
        eprintln!("{USAGE}");
        return ExitCode::from(2);
    }
    println!("processor time");
    let mut all = true;
    for filling in &FILLINGS {
        for header in [MOST, MOST + 1, WRAPPED] {
            // No description is long enough for so many hashes.
            if header < WRAPPED || filling.name != "hashes" {
                all &= right(filling, header);
            }
        }
    }
    println!("{}as document 02 says", if all { "" } else { "not " });
    if all {
        ExitCode::SUCCESS
    } else {
        ExitCode::FAILURE
    }
}
