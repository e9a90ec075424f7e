//! A report taken apart: sections, and the rows in each.
use crate::decode::be;

/// The sections of a report, whole.
pub fn sections(report: &[u8]) -> Vec<&[u8]> {
    let mut at = 9;
    let mut out = Vec::new();
    for _ in 0..be(report, 5, 4) {
        let end = section_end(report, at);
        out.push(&report[at..end]);
        at = end;
    }
    out
}

fn section_end(report: &[u8], section: usize) -> usize {
    let mut at = first_row(report, section);
    for _ in 0..be(report, at - 4, 4) {
        at += 4 + be(report, at, 4) as usize;
    }
    at
}

/// The rows of a section, each without its length.
pub fn rows(section: &[u8]) -> Vec<&[u8]> {
    let mut at = first_row(section, 0);
    let mut out = Vec::new();
    while at < section.len() {
        let end = at + 4 + be(section, at, 4) as usize;
        out.push(&section[at + 4..end]);
        at = end;
    }
    out
}

/// The six texts of a row.
pub fn texts(row: &[u8]) -> [&[u8]; 6] {
    let mut at = 6;
    [(); 6].map(|()| {
        let start = at + 4;
        at = start + be(row, at, 4) as usize;
        &row[start..at]
    })
}

/// Behind the id, the package's name and the two counts.
fn first_row(report: &[u8], section: usize) -> usize {
    section + 12 + be(report, section + 8, 4) as usize + 8
}
