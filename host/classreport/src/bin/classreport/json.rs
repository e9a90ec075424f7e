//! Rows as JSON lines (RFC 8259, one object to a line), or as an array.
use std::fmt::Write as _;
use std::io::{self, Write};

use crate::sheet::{Cell, Rows, shown_id};

pub fn write(rows: &dyn Rows, out: &mut dyn Write) -> io::Result<()> {
    let names = names(rows);
    let mut line = String::new();
    rows.each(&mut |cells| {
        line.clear();
        put_object(&mut line, &names, cells);
        line.push('\n');
        out.write_all(line.as_bytes())
    })
}

/// All rows as a JSON array.
pub fn array(rows: &dyn Rows) -> io::Result<String> {
    let names = names(rows);
    let mut all = Vec::new();
    rows.each(&mut |cells| {
        let mut object = String::new();
        put_object(&mut object, &names, cells);
        all.push(object);
        Ok(())
    })?;
    Ok(format!("[{}]", all.join(",")))
}

fn names(rows: &dyn Rows) -> Vec<String> {
    rows.header().into_iter().map(quoted).collect()
}

fn put_object(line: &mut String, names: &[String], cells: &[Cell]) {
    line.push('{');
    for (place, (name, cell)) in names.iter().zip(cells).enumerate() {
        if place > 0 {
            line.push(',');
        }
        line.push_str(name);
        line.push(':');
        put(line, cell);
    }
    line.push('}');
}

fn put(line: &mut String, cell: &Cell) {
    match cell {
        Cell::Text(text) => put_quoted(line, text),
        Cell::Unknown => line.push_str("null"),
        Cell::Flag(flag) => line.push_str(if *flag { "true" } else { "false" }),
        Cell::Number(number) => line.push_str(&number.to_string()),
        Cell::Id(id) => put_quoted(line, &shown_id(*id)),
    }
}

/// A text as JSON has it.
pub fn quoted(text: &str) -> String {
    let mut out = String::new();
    put_quoted(&mut out, text);
    out
}

fn put_quoted(out: &mut String, text: &str) {
    out.push('"');
    for c in text.chars() {
        match c {
            '"' => out.push_str("\\\""),
            '\\' => out.push_str("\\\\"),
            '\n' => out.push_str("\\n"),
            '\r' => out.push_str("\\r"),
            '\t' => out.push_str("\\t"),
            // Some readers take these two for line ends.
            '\0'..' ' | '\u{7f}' | '\u{2028}' | '\u{2029}' => {
                let _ = write!(out, "\\u{:04x}", c as u32);
            }
            _ => out.push(c),
        }
    }
    out.push('"');
}
