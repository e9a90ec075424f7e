//! `summary`: how many rows each native class has.
use std::collections::HashMap;
use std::io::{self, Write};

use classreport::Report;

use crate::args::Words;
use crate::failure::Failure;
use crate::filter::Filter;
use crate::input::subject;
use crate::output::{self, Holds};
use crate::sheet::{self, Cell, Format, Rows, Visit};
use crate::terminal::Look;

/// A package's name (empty where all are taken together) and a native class, known or not.
type Group<'a> = (&'a str, Option<&'a str>);

/// Counts of rows, most first in each package; what is unknown stands last.
pub struct Counts<'a> {
    groups: Vec<(Group<'a>, u64)>,
    header: &'static [&'static str],
}

impl<'a> Counts<'a> {
    pub fn new(report: &'a Report, filter: &Filter, by_package: bool) -> Counts<'a> {
        let mut groups: HashMap<Group, u64> = HashMap::new();
        for section in filter.sections(report) {
            let package = if by_package { section.name } else { "" };
            for row in filter.rows(&section) {
                *groups.entry((package, row.native)).or_default() += 1;
            }
        }
        let mut groups: Vec<(Group, u64)> = groups.into_iter().collect();
        groups.sort_by_key(|((package, native), rows)| {
            (*package, native.is_none(), u64::MAX - rows, *native)
        });
        let header: &[&str] = if by_package {
            &["package", "native", "native_known", "rows"]
        } else {
            &["native", "native_known", "rows"]
        };
        Counts { groups, header }
    }

    /// Native classes with their counts; what is unknown is `None`.
    pub fn natives(&self) -> impl Iterator<Item = (Option<&'a str>, u64)> {
        self.groups
            .iter()
            .map(|((_, native), rows)| (*native, *rows))
    }
}

impl Rows for Counts<'_> {
    fn header(&self) -> Vec<&'static str> {
        self.header.to_vec()
    }

    fn each(&self, visit: &mut Visit) -> io::Result<()> {
        for ((package, native), rows) in &self.groups {
            let all = [
                Cell::Text(package),
                native.map_or(Cell::Unknown, Cell::Text),
                Cell::Flag(native.is_some()),
                Cell::Number(*rows),
            ];
            visit(&all[all.len() - self.header.len()..])?;
        }
        Ok(())
    }
}

/// The whole in a line.
pub fn in_words(report: &Report, filter: &Filter) -> String {
    let (mut rows, mut known, mut classes) = (0, 0, 0);
    let (mut packages, mut exports) = (0, 0);
    for section in filter.sections(report) {
        packages += 1;
        exports += u64::from(section.exports);
        for row in filter.rows(&section) {
            rows += 1;
            known += u64::from(row.native.is_some());
            classes += u64::from(row.class.is_some());
        }
    }
    format!(
        "{rows} rows in {packages} packages with {exports} exports; class known in {classes}, native class known in \
         {known}, unknown in {}",
        rows - known
    )
}

pub fn run(words: &Words) -> Result<u8, Failure> {
    let format = sheet::format(words, false)?;
    let look = Look::of(words)?;
    let filter = Filter::of(words)?;
    let report = subject(words, 0)?.report;
    let counts = Counts::new(&report, &filter, words.has("by-package"));
    let body = |out: &mut dyn Write| {
        sheet::write(format, &counts, look, out)?;
        if format == Format::Table && !words.has("quiet") {
            writeln!(out, "{}", in_words(&report, &filter))?;
        }
        Ok(())
    };
    output::write(words, Holds::Text, Box::new(body))?;
    Ok(0)
}
