//! The reference's parts, each over the whole corpus, and the whole call as the oracle composes it of them.
use std::hint::black_box;
use std::time::Duration;

use answer::Refusal;
use clock::timed;
use oracle::report::{class_report, parts};
use oracle::scan::resolve;
use oracle::stages::{headers, scan, script};

pub const PARTS: [&str; 6] = [
    "frame",
    "parse_script_objects",
    "parse_package_header",
    "scan_header",
    "resolve",
    "whole call",
];

/// One round: the time of each of `PARTS`, or the refusal.
pub fn round(corpus: &[u8]) -> Result<Vec<Duration>, Refusal> {
    let (parts, frame_time) = timed(|| parts(corpus));
    let parts = parts.map_err(|number| (number, 0))?;
    let (script, script_time) = timed(|| script(&parts));
    let script = script?;
    let (headers, headers_time) = timed(|| headers(&parts));
    let headers = headers?;
    let (scanned, scan_time) = timed(|| scan(&parts, &headers, &script));
    let scanned = scanned?;
    let ((), resolve_time) = timed(|| {
        for candidate in scanned.candidates.iter().flatten() {
            black_box(resolve(&candidate.class, &script, &scanned.classes));
        }
    });
    drop((script, headers, scanned));
    let (_, call_time) = timed(|| black_box(class_report(corpus, u64::MAX, u64::MAX)));
    Ok(vec![
        frame_time,
        script_time,
        headers_time,
        scan_time,
        resolve_time,
        call_time,
    ])
}
