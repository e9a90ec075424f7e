//! The call in stages, each one function of the reference over all that it applies to.
use std::collections::hash_map::Entry;

use answer::Refusal;

use crate::frame::Parts;
use crate::names::read_name_batch;
use crate::question::question;
use crate::reader::{Cursor, Error};
use crate::scan::{Candidate, ClassTable, scan_header};
use crate::script::{ScriptObjects, parse_script_objects};
use crate::zen::{PackageHeader, parse_package_header};

/// Blocks 2 and up are the packages.
pub const FIRST_PACKAGE: u32 = 2;

/// The refusal for a message of the reference.
fn refusal(error: &Error, block: u32) -> Refusal {
    match question(&error.0) {
        Some(number) => (number, block),
        None => panic!("no question for the message: {}", error.0),
    }
}

/// Questions 3 to 13.
pub fn script(parts: &Parts) -> Result<ScriptObjects, Refusal> {
    parse_script_objects(parts.script).map_err(|error| refusal(&error, 1))
}

/// How many objects an accepted script block has. The reference keeps its map to itself, so the count is read again, by
/// the reference's own functions.
pub fn script_count(parts: &Parts) -> usize {
    let mut cursor = Cursor::new(parts.script, "script objects");
    read_name_batch(&mut cursor).expect("read before");
    cursor.count(32).expect("read before")
}

/// Questions 3 to 7, 10 and 14 to 22.
pub fn headers(parts: &Parts) -> Result<Vec<PackageHeader>, Refusal> {
    let mut headers = Vec::with_capacity(parts.packages.len());
    for (block, (_, bytes)) in (FIRST_PACKAGE..).zip(&parts.packages) {
        let header = parse_package_header(bytes).map_err(|error| refusal(&error, block))?;
        headers.push(header);
    }
    Ok(headers)
}

/// What the scan of all packages found.
pub struct Scanned {
    pub candidates: Vec<Vec<Candidate>>,
    pub classes: ClassTable,
}

impl Scanned {
    pub fn rows(&self) -> usize {
        self.candidates.iter().map(Vec::len).sum()
    }
}

/// Question 24, which the reference doesn't ask: no class key twice?
pub fn scan(
    parts: &Parts,
    headers: &[PackageHeader],
    script: &ScriptObjects,
) -> Result<Scanned, Refusal> {
    let mut scanned = Scanned {
        candidates: Vec::with_capacity(headers.len()),
        classes: ClassTable::new(),
    };
    for (block, ((id, _), header)) in (FIRST_PACKAGE..).zip(parts.packages.iter().zip(headers)) {
        let (candidates, classes) = scan_header(header, *id, script);
        scanned.candidates.push(candidates);
        for (hash, class) in classes {
            match scanned.classes.entry((*id, hash)) {
                Entry::Occupied(_) => return Err((24, block)),
                Entry::Vacant(free) => free.insert(class),
            };
        }
    }
    Ok(scanned)
}
