//! Document 01's call over the reference: the corpus in, the exact answer and the report's bytes out.
use answer::Answer;

use crate::row::{put_row, put_text};
use crate::scan::resolve;
use crate::script::ScriptObjects;
use crate::stages::{Scanned, headers, scan, script, script_count};
use crate::zen::PackageHeader;

pub use crate::frame::{Parts, parts};

/// The longest report: its 4-byte length counts what follows.
pub const MOST: u64 = 4_294_967_299;

/// The call; `work` and `buffer` are the two buffers' lengths.
pub fn class_report(corpus: &[u8], work: u64, buffer: u64) -> Answer {
    let parts = parts(corpus).map_err(|number| (number, 0))?;
    let script = script(&parts)?;
    let headers = headers(&parts)?;
    let scanned = scan(&parts, &headers, &script)?;
    let records = script_count(&parts) + scanned.classes.len() + scanned.rows();
    if work < 64 * records as u64 {
        return Err((25, 0));
    }
    report(&parts, &headers, &script, &scanned, MOST.min(buffer))
}

/// The report, unless it is longer than `most` (question 26). A row can be millions of times as long as its export, so
/// the first byte too many settles it; there is no later question.
pub fn report(
    parts: &Parts,
    headers: &[PackageHeader],
    script: &ScriptObjects,
    scanned: &Scanned,
    most: u64,
) -> Answer {
    let mut out = vec![0, 0, 0, 0, 1];
    out.extend((headers.len() as u32).to_be_bytes());
    let packages = parts.packages.iter().zip(headers).zip(&scanned.candidates);
    for (((id, _), header), candidates) in packages {
        out.extend(id.to_be_bytes());
        put_text(&mut out, &header.name);
        out.extend((header.exports.len() as u32).to_be_bytes());
        out.extend((candidates.len() as u32).to_be_bytes());
        for candidate in candidates {
            let resolved = resolve(&candidate.class, script, &scanned.classes);
            put_row(&mut out, candidate, &resolved, script, &scanned.classes);
            if out.len() as u64 > most {
                return Err((26, 0));
            }
        }
    }
    if out.len() as u64 > most {
        return Err((26, 0));
    }
    let length = (out.len() - 4) as u32;
    out[..4].copy_from_slice(&length.to_be_bytes());
    Ok(out)
}
