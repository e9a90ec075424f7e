//! The columns that a row can be shown in.
use classreport::{Kind, Row, Section};

use crate::args::Words;
use crate::failure::Failure;
use crate::sheet::Cell;

/// A column: its name, and what a row has in it.
#[derive(Clone, Copy)]
pub struct Column {
    pub name: &'static str,
    pub cell: for<'a> fn(&Section<'a>, &Row<'a>) -> Cell<'a>,
}

/// A macro only since a closure's lifetimes can't be written down.
macro_rules! column {
    ($name:literal, $section:pat, $row:pat => $cell:expr) => {{
        fn cell<'a>($section: &Section<'a>, $row: &Row<'a>) -> Cell<'a> {
            $cell
        }
        Column { name: $name, cell }
    }};
}

/// All columns: the order in which they are written where none are chosen.
pub const ALL: [Column; 13] = [
    column!("id", section, _ => Cell::Id(section.id)),
    column!("package", section, _ => Cell::Text(section.name)),
    column!("instance", _, row => Cell::Text(row.instance)),
    column!("export", _, row => Cell::Text(row.export)),
    column!("outer", _, row => Cell::Text(row.outer)),
    column!("kind", _, row => Cell::Text(kind(row.kind))),
    column!("numbered", _, row => Cell::Flag(row.numbered)),
    column!("class_kind", _, row => Cell::Text(row.class_kind.words())),
    column!("class_known", _, row => Cell::Flag(row.class.is_some())),
    column!("class", _, row => row.class.map_or(Cell::Unknown, Cell::Text)),
    column!("native_known", _, row => Cell::Flag(row.native.is_some())),
    column!("native", _, row => row.native.map_or(Cell::Unknown, Cell::Text)),
    column!("reference", _, row => Cell::Text(row.reference)),
];

/// What a table and a page show where none are chosen.
const FOR_PEOPLE: &str = "package,instance,class,native";

/// The columns that were asked for; otherwise some for people, and all of them for programs.
pub fn chosen(words: &Words, for_people: bool) -> Result<Vec<Column>, Failure> {
    match words.text("columns")? {
        Some(list) => named(list),
        None if for_people => named(FOR_PEOPLE),
        None => Ok(ALL.to_vec()),
    }
}

/// The columns in a list of names.
fn named(list: &str) -> Result<Vec<Column>, Failure> {
    let column = |wanted: &str| {
        let found = ALL.iter().find(|column| column.name == wanted.trim());
        found.copied().ok_or_else(|| {
            let all = ALL.map(|column| column.name).join(", ");
            Failure::usage(format!("--columns: '{wanted}' is none of {all}"))
        })
    };
    list.split(',').map(column).collect()
}

/// A row's kind in a word.
fn kind(kind: Kind) -> &'static str {
    match kind {
        Kind::Template => "template",
        Kind::Default => "default",
    }
}
