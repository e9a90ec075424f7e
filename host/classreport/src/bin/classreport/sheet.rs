//! Rows of cells, written in the format that was asked for.
use std::io::{self, Write};

use crate::args::Words;
use crate::failure::Failure;
use crate::terminal::Look;
use crate::{csv, json, table};

#[derive(Debug, Clone, Copy)]
pub enum Cell<'a> {
    Text(&'a str),
    /// a text that is not known
    Unknown,
    Flag(bool),
    Number(u64),
    /// a package's id
    Id(u64),
}

/// A package's id as it is shown everywhere: no spreadsheet takes it for a number.
pub fn shown_id(id: u64) -> String {
    format!("0x{id:016x}")
}

/// What visits the rows.
pub type Visit<'a> = dyn FnMut(&[Cell]) -> io::Result<()> + 'a;

/// Rows that can be gone through more than once.
pub trait Rows {
    fn header(&self) -> Vec<&'static str>;
    fn each(&self, visit: &mut Visit) -> io::Result<()>;
}

#[derive(Debug, Clone, Copy, PartialEq, Eq)]
pub enum Format {
    Table,
    Csv,
    Tsv,
    Jsonl,
    Html,
}

/// The format that was asked for; a table without.
pub fn format(words: &Words, html: bool) -> Result<Format, Failure> {
    let all = [
        ("table", Format::Table),
        ("csv", Format::Csv),
        ("tsv", Format::Tsv),
        ("jsonl", Format::Jsonl),
        ("html", Format::Html),
    ];
    let count = if html { all.len() } else { all.len() - 1 };
    words.choice("format", &all[..count])
}

pub fn write(format: Format, rows: &dyn Rows, look: Look, out: &mut dyn Write) -> io::Result<()> {
    match format {
        Format::Csv => csv::write_csv(rows, out),
        Format::Tsv => csv::write_tsv(rows, out),
        Format::Jsonl => json::write(rows, out),
        Format::Table | Format::Html => table::write(rows, look, out),
    }
}
