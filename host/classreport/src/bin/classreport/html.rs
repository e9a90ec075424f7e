//! `show -f html`: one page without a network. Counts by native class, a table to filter, and each row's chain.
use std::collections::HashMap;
use std::io::{self, Write};

use classreport::{Row, Section};

use crate::chains::{self, LEFT_OUT};
use crate::chart;
use crate::columns::Column;
use crate::drawing::boxes;
use crate::failure::Failure;
use crate::filter::Filter;
use crate::input::Subject;
use crate::markup::escaped;
use crate::sheet::Cell;
use crate::summary::{Counts, in_words};
use crate::table::shown;

/// The page loads nothing, whatever a name holds.
const HEAD: &str = "<!DOCTYPE html>
<html lang=\"en\">
<head>
<meta charset=\"utf-8\">
<meta http-equiv=\"Content-Security-Policy\" \
content=\"default-src 'none'; style-src 'unsafe-inline'; script-src 'unsafe-inline'\">
<meta name=\"viewport\" content=\"width=device-width\">";

const STYLE: &str = include_str!("page/style.css");
const SCRIPT: &str = include_str!("page/script.js");

/// A page, all of it but the rows' cells worked out.
pub struct Page<'a> {
    subject: &'a Subject,
    columns: Vec<Column>,
    filter: &'a Filter,
    /// each chain, drawn once
    drawn: Vec<String>,
    /// the chain of each row
    chains: Vec<Option<usize>>,
}

impl Page<'_> {
    pub fn new<'a>(
        subject: &'a Subject,
        columns: Vec<Column>,
        filter: &'a Filter,
    ) -> Result<Page<'a>, Failure> {
        let mut numbers = HashMap::new();
        let mut drawn = Vec::new();
        let mut of_rows = Vec::new();
        chains::each(subject, filter, &mut |_, _, chain| {
            of_rows.push(chain.map(|chain| {
                let figure = boxes(chain);
                *numbers.entry(figure).or_insert_with_key(|figure| {
                    drawn.push(figure.clone());
                    drawn.len() - 1
                })
            }));
        })?;
        Ok(Page {
            subject,
            columns,
            filter,
            drawn,
            chains: of_rows,
        })
    }

    pub fn write(&self, out: &mut dyn Write) -> io::Result<()> {
        let name = escaped(&self.subject.name.display().to_string());
        let words = escaped(&in_words(&self.subject.report, self.filter));
        writeln!(out, "{HEAD}\n<title>Class report: {name}</title>")?;
        writeln!(out, "<style>\n{STYLE}</style>\n</head>\n<body>")?;
        writeln!(out, "<h1>Class report: {name}</h1>\n<p>{words}</p>")?;
        chart::write(&Counts::new(&self.subject.report, self.filter, false), out)?;
        self.table(out)?;
        self.figures(out)?;
        writeln!(out, "<script>\n{SCRIPT}</script>\n</body>\n</html>")
    }

    fn table(&self, out: &mut dyn Write) -> io::Result<()> {
        writeln!(out, "<h2>Components</h2>")?;
        if self.subject.source.is_none() {
            writeln!(out, "<p>{LEFT_OUT}</p>")?;
        }
        writeln!(
            out,
            "<p class=\"filter\"><input type=\"search\" id=\"words\" placeholder=\"Filter\" aria-label=\"Filter\"> \
             <label><input type=\"checkbox\" id=\"unknown\"> unknown only</label> <span id=\"count\"></span></p>"
        )?;
        write!(out, "<table id=\"rows\">\n<thead><tr>")?;
        for column in &self.columns {
            write!(out, "<th>{}</th>", column.name)?;
        }
        let chain = if self.drawn.is_empty() {
            ""
        } else {
            "<th>chain</th>"
        };
        writeln!(out, "{chain}</tr></thead>\n<tbody>")?;
        let mut chains = self.chains.iter();
        for section in self.filter.sections(&self.subject.report) {
            for row in self.filter.rows(&section) {
                self.row(out, &section, &row, chains.next().copied().flatten())?;
            }
        }
        writeln!(out, "</tbody>\n</table>")
    }

    fn row(
        &self,
        out: &mut dyn Write,
        section: &Section,
        row: &Row,
        chain: Option<usize>,
    ) -> io::Result<()> {
        let unknown = row.class.is_none() || row.native.is_none();
        write!(
            out,
            "<tr{}>",
            if unknown { " class=\"unknown\"" } else { "" }
        )?;
        for column in &self.columns {
            let cell = (column.cell)(section, row);
            let text = escaped(&shown(&cell));
            match cell {
                Cell::Text(_) => write!(out, "<td><bdi>{text}</bdi></td>")?,
                _ => write!(out, "<td>{text}</td>")?,
            }
        }
        if let Some(number) = chain {
            write!(
                out,
                "<td><a class=\"draw\" href=\"#chain-{number}\">chain</a></td>"
            )?;
        }
        writeln!(out, "</tr>")
    }

    fn figures(&self, out: &mut dyn Write) -> io::Result<()> {
        if self.drawn.is_empty() {
            return Ok(());
        }
        writeln!(out, "<h2>Chains</h2>")?;
        for (number, figure) in self.drawn.iter().enumerate() {
            writeln!(out, "<figure id=\"chain-{number}\">{figure}</figure>")?;
        }
        Ok(())
    }
}
