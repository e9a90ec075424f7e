//! `verify`: whether a build has the hashes of its own names.
use std::io::{self, Write};

use classreport::chain::{Findings, Flagged, Headers};
use classreport::{Corpus, Limits, Verified};

use crate::args::Words;
use crate::failure::Failure;
use crate::input::{Source, source};
use crate::json;
use crate::output::{self, Holds};
use crate::sheet::{Cell, Rows, Visit};
use crate::table;
use crate::terminal::Look;

/// A table names no more objects than this; json has all.
const MOST_NAMED: usize = 20;

#[derive(Clone, Copy, PartialEq, Eq)]
enum Format {
    Table,
    Json,
}

pub fn run(words: &Words) -> Result<u8, Failure> {
    let format = words.choice(
        "format",
        &[("table", Format::Table), ("json", Format::Json)],
    )?;
    let look = Look::of(words)?;
    let source = source(words, 0)?;
    let verified = source.verified(words)?;
    let found = found(&source, &verified)?;
    let body = |out: &mut dyn Write| match format {
        Format::Table => write_tables(&verified, &found, look, out),
        Format::Json => write_json(&verified, &found, out),
    };
    if format == Format::Json || !words.has("quiet") {
        output::write(words, Holds::Text, Box::new(body))?;
    }
    if verified.all_match() {
        return Ok(0);
    }
    Err(Failure::mismatch(in_words(&verified)).about(&source.name))
}

/// Which objects and packages the call counted.
fn found(source: &Source, verified: &Verified) -> Result<Findings, Failure> {
    let corpus = Corpus::read(&source.bytes).map_err(|refusal| source.refused(refusal))?;
    let headers = Headers::read(&corpus, Limits::BOOTHS);
    let found = headers.and_then(|headers| headers.findings(verified));
    found.map_err(|differ| Failure::disagreement(&differ).about(&source.name))
}

/// How much does not match.
fn in_words(verified: &Verified) -> String {
    let (objects, packages) = (verified.mismatches, verified.wrong_packages());
    let (resolved, all) = (verified.resolved, verified.flags.len());
    format!(
        "mismatch: {objects} of {resolved} script paths and {packages} of {all} package names have another hash than the \
         build says"
    )
}

/// Rows that are all there.
struct Listed<'a> {
    header: &'static [&'static str],
    rows: Vec<Vec<Cell<'a>>>,
}

impl Rows for Listed<'_> {
    fn header(&self) -> Vec<&'static str> {
        self.header.to_vec()
    }

    fn each(&self, visit: &mut Visit) -> io::Result<()> {
        self.rows.iter().try_for_each(|row| visit(row))
    }
}

fn counts(verified: &Verified) -> Listed<'static> {
    let Verified {
        objects,
        resolved,
        matches,
        mismatches,
        ..
    } = verified;
    let numbers = [objects, resolved, matches, mismatches].map(|n| Cell::Number((*n).into()));
    Listed {
        header: &["objects", "resolved", "matches", "mismatches"],
        rows: vec![numbers.to_vec()],
    }
}

fn packages<'a>(all: impl IntoIterator<Item = &'a Flagged>) -> Listed<'a> {
    let rows = all.into_iter().map(|package| {
        let Flagged { name, id, matches } = package;
        vec![Cell::Flag(*matches), Cell::Id(*id), Cell::Text(name)]
    });
    Listed {
        header: &["matches", "id", "package"],
        rows: rows.collect(),
    }
}

/// Script objects by index and by path or name.
fn objects<'a>(header: &'static [&'static str; 2], all: &'a [(String, u64)]) -> Listed<'a> {
    let row = |(name, index): &'a (String, u64)| vec![Cell::Id(*index), Cell::Text(name)];
    Listed {
        header,
        rows: all.iter().map(row).collect(),
    }
}

fn write_tables(
    verified: &Verified,
    found: &Findings,
    look: Look,
    out: &mut dyn Write,
) -> io::Result<()> {
    table::write(&counts(verified), look, out)?;
    for (header, all) in [
        (&["mismatched index", "path"], &found.mismatched),
        (&["unresolved index", "name"], &found.unresolved),
    ] {
        if all.is_empty() {
            continue;
        }
        let named = &all[..all.len().min(MOST_NAMED)];
        writeln!(out)?;
        table::write(&objects(header, named), look, out)?;
        if named.len() < all.len() {
            writeln!(out, "… and {} more", all.len() - named.len())?;
        }
    }
    let mut wrong_first: Vec<&Flagged> = found.packages.iter().collect();
    wrong_first.sort_by_key(|package| package.matches);
    writeln!(out)?;
    table::write(&packages(wrong_first), look, out)
}

fn write_json(verified: &Verified, found: &Findings, out: &mut dyn Write) -> io::Result<()> {
    let Verified {
        objects: count,
        resolved,
        matches,
        mismatches,
        ..
    } = verified;
    writeln!(
        out,
        "{{\"objects\":{count},\"resolved\":{resolved},\"matches\":{matches},\"mismatches\":{mismatches},\
         \"mismatched\":{},\"unresolved\":{},\"packages\":{}}}",
        json::array(&objects(&["index", "path"], &found.mismatched))?,
        json::array(&objects(&["index", "name"], &found.unresolved))?,
        json::array(&packages(&found.packages))?,
    )
}
