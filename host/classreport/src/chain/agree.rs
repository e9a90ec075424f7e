//! The comparison of a chain followed here with the row that the call gave.
use std::error::Error;
use std::fmt;

use super::Chain;
use crate::Row;

/// The proved call and the host's own reading of the headers differ: one of them is not to be trusted on this corpus.
#[derive(Debug, Clone, PartialEq, Eq)]
pub struct Disagreement(String);

impl Disagreement {
    /// A block (as the call numbers them) that can't be read here.
    pub(super) fn unreadable(block: usize) -> Disagreement {
        Disagreement(format!(
            "the call accepted block {block}, but the host's own reader can't read it"
        ))
    }

    /// Compares what the call says of something with what was found here.
    pub(super) fn unless(
        agreed: bool,
        (package, export, what): (usize, &str, &str),
        call: &str,
        host: &str,
    ) -> Result<(), Disagreement> {
        if agreed {
            return Ok(());
        }
        let row = if export.is_empty() {
            String::new()
        } else {
            format!(", export {export}")
        };
        Err(Disagreement(format!(
            "package {}{row}: {what} is {call} by the call, but {host} by the host's own reading",
            package + 1
        )))
    }
}

impl Disagreement {
    /// Compares how many the call counted and how many were found here.
    pub(super) fn unless_counted(
        agreed: bool,
        what: &str,
        [call, host]: &[usize; 2],
    ) -> Result<(), Disagreement> {
        if agreed {
            return Ok(());
        }
        Err(Disagreement(format!(
            "{call} {what} by the call, but {host} by the host's own reading"
        )))
    }
}

impl fmt::Display for Disagreement {
    fn fmt(&self, f: &mut fmt::Formatter) -> fmt::Result {
        write!(f, "the chains are not shown: {}", self.0)
    }
}

impl Error for Disagreement {}

/// Compares a chain, and the names that it starts from, with a row.
pub(super) fn agree(
    package: usize,
    row: &Row,
    export: &str,
    reference: &str,
    chain: &Chain,
) -> Result<(), Disagreement> {
    let (class, native) = (chain.class(), chain.native());
    let compared = [
        ("the export's name", Some(row.export), Some(export)),
        ("the class reference", Some(row.reference), Some(reference)),
        ("the class", row.class, class.as_deref()),
        ("the native class", row.native, native.as_deref()),
        (
            "the class kind",
            Some(row.class_kind.words()),
            Some(chain.class_kind.words()),
        ),
    ];
    for (what, call, host) in compared {
        Disagreement::unless(
            call == host,
            (package, row.export, what),
            &told(call),
            &told(host),
        )?;
    }
    Ok(())
}

fn told(text: Option<&str>) -> String {
    text.map_or("unknown".to_owned(), |text| format!("`{text}`"))
}
