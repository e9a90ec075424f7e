//! `show`: a report's rows for people, spreadsheets and programs.
use std::io;

use classreport::Report;

use crate::args::Words;
use crate::columns::{Column, chosen};
use crate::failure::Failure;
use crate::filter::Filter;
use crate::html;
use crate::input::subject;
use crate::output::{self, Holds};
use crate::progress::Progress;
use crate::sheet::{self, Format, Rows, Visit};
use crate::terminal::Look;

/// The rows of a report that a filter takes, in some columns.
struct Shown<'a> {
    report: &'a Report<'a>,
    columns: Vec<Column>,
    filter: Filter,
}

impl Rows for Shown<'_> {
    fn header(&self) -> Vec<&'static str> {
        self.columns.iter().map(|column| column.name).collect()
    }

    fn each(&self, visit: &mut Visit) -> io::Result<()> {
        let mut cells = Vec::new();
        for section in self.filter.sections(self.report) {
            for row in self.filter.rows(&section) {
                cells.clear();
                cells.extend(
                    self.columns
                        .iter()
                        .map(|column| (column.cell)(&section, &row)),
                );
                visit(&cells)?;
            }
        }
        Ok(())
    }
}

pub fn run(words: &Words) -> Result<u8, Failure> {
    let format = sheet::format(words, true)?;
    let look = Look::of(words)?;
    let filter = Filter::of(words)?;
    let for_people = matches!(format, Format::Table | Format::Html);
    let columns = chosen(words, for_people)?;
    let mut subject = subject(words, 0)?;
    if format == Format::Html {
        let name = subject.name.display();
        let shown = Progress::start(words, format!("{name}: following the chains"));
        let page = html::Page::new(&subject, columns, &filter)?;
        drop(shown);
        output::write(words, Holds::Text, Box::new(move |out| page.write(out)))?;
        return Ok(0);
    }
    // The corpus is no longer needed.
    subject.source = None;
    let rows = Shown {
        report: &subject.report,
        columns,
        filter,
    };
    output::write(
        words,
        Holds::Text,
        Box::new(|out| sheet::write(format, &rows, look, out)),
    )?;
    Ok(0)
}
