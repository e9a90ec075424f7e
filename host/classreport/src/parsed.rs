//! A report taken apart, without copying: sections, and rows in each.
use std::borrow::Cow;
use std::fmt;

use crate::fields::{Fields, Malformed};
use crate::row::{Row, row};

/// A well-formed report.
///
/// ```
/// let report = classreport::Report::parse(&[0, 0, 0, 5, 1, 0, 0, 0, 0]).unwrap();
/// assert_eq!(report.sections().count(), 0);
///
/// let malformed = classreport::Report::parse(&[0, 0, 0, 5, 2, 0, 0, 0, 0]).unwrap_err();
/// assert_eq!(malformed.to_string(), "malformed report, byte 4: its version is not 1");
/// ```
#[derive(Debug, Clone, PartialEq, Eq)]
pub struct Report<'a> {
    bytes: Cow<'a, [u8]>,
}

impl<'a> Report<'a> {
    /// Takes a report apart.
    ///
    /// # Errors
    /// Says where and why it is no report.
    pub fn parse(bytes: &'a [u8]) -> Result<Report<'a>, Malformed> {
        check(bytes)?;
        let bytes = Cow::Borrowed(bytes);
        Ok(Report { bytes })
    }

    /// The same, of bytes that the report keeps.
    ///
    /// # Errors
    /// Says where and why it is no report.
    pub fn from_vec(bytes: Vec<u8>) -> Result<Report<'static>, Malformed> {
        check(&bytes)?;
        let bytes = Cow::Owned(bytes);
        Ok(Report { bytes })
    }

    /// What the call wrote, which is proved to be well-formed and so not looked at again.
    pub(crate) fn of_call(bytes: Vec<u8>) -> Report<'static> {
        let bytes = Cow::Owned(bytes);
        Report { bytes }
    }

    /// All of the report's bytes.
    pub fn bytes(&self) -> &[u8] {
        &self.bytes
    }

    /// A section for each package, in corpus order.
    pub fn sections(&self) -> Sections<'_> {
        let mut fields = Fields::new(&self.bytes);
        let left = start(&mut fields).expect(CHECKED);
        Sections { fields, left }
    }

    /// Every row with its section.
    pub fn rows(&self) -> impl Iterator<Item = (Section<'_>, Row<'_>)> {
        self.sections()
            .flat_map(|section| section.rows().map(move |row| (section, row)))
    }
}

const CHECKED: &str =
    "a report is checked when it is parsed, and what the call writes is well-formed";

/// The section of a package.
#[derive(Clone, Copy, PartialEq, Eq)]
pub struct Section<'a> {
    /// The package's id.
    pub id: u64,
    /// The package's name.
    pub name: &'a str,
    /// How many exports the package has.
    pub exports: u32,
    /// How many of them are candidates, and so have a row.
    pub row_count: u32,
    /// the section's bytes, and the rows' among them
    bytes: &'a [u8],
    rows: Fields<'a>,
}

impl<'a> Section<'a> {
    /// The section's bytes in the report.
    pub fn bytes(&self) -> &'a [u8] {
        self.bytes
    }

    /// The rows, in export order.
    pub fn rows(&self) -> Rows<'a> {
        Rows {
            fields: self.rows,
            left: self.row_count,
        }
    }
}

impl fmt::Debug for Section<'_> {
    fn fmt(&self, f: &mut fmt::Formatter) -> fmt::Result {
        f.debug_struct("Section")
            .field("id", &self.id)
            .field("name", &self.name)
            .field("exports", &self.exports)
            .field("row_count", &self.row_count)
            .finish_non_exhaustive()
    }
}

/// See [`Report::sections`].
#[derive(Debug, Clone)]
pub struct Sections<'a> {
    fields: Fields<'a>,
    left: u32,
}

impl<'a> Iterator for Sections<'a> {
    type Item = Section<'a>;

    fn next(&mut self) -> Option<Section<'a>> {
        self.left = self.left.checked_sub(1)?;
        Some(section(&mut self.fields).expect(CHECKED))
    }
}

/// See [`Section::rows`].
#[derive(Debug, Clone)]
pub struct Rows<'a> {
    fields: Fields<'a>,
    left: u32,
}

impl<'a> Iterator for Rows<'a> {
    type Item = Row<'a>;

    fn next(&mut self) -> Option<Row<'a>> {
        self.left = self.left.checked_sub(1)?;
        Some(row(&mut self.fields).expect(CHECKED))
    }

    fn size_hint(&self) -> (usize, Option<usize>) {
        (self.left as usize, Some(self.left as usize))
    }
}

/// Reads all of a report once.
fn check(bytes: &[u8]) -> Result<(), Malformed> {
    let mut fields = Fields::new(bytes);
    let count = start(&mut fields)?;
    for number in 1..=count {
        let section = section(&mut fields).map_err(|wrong| wrong.in_section(number))?;
        let mut rows = section.rows;
        for place in 1..=section.row_count {
            row(&mut rows).map_err(|wrong| wrong.in_section(number).in_row(place))?;
        }
    }
    fields.end("bytes are left behind its last section")
}

/// The length, the version and the package count.
fn start(fields: &mut Fields) -> Result<u32, Malformed> {
    let length = fields.number()?;
    fields.is(fields.left() == length as usize, "its length is wrong")?;
    fields.version()?;
    fields.number()
}

/// A section; its rows are skipped by their lengths.
fn section<'a>(fields: &mut Fields<'a>) -> Result<Section<'a>, Malformed> {
    let whole = *fields;
    let id = fields.id()?;
    let name = fields.text()?;
    let exports = fields.number()?;
    let row_count = fields.number()?;
    let from = *fields;
    for _ in 0..row_count {
        fields.part()?;
    }
    Ok(Section {
        id,
        name,
        exports,
        row_count,
        bytes: whole.up_to(fields),
        rows: from,
    })
}
