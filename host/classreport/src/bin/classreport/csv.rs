//! Rows as comma-separated (RFC 4180) and as tab-separated values.
use std::io::{self, Write};

use crate::sheet::{Cell, Rows, shown_id};

/// RFC 4180: lines end in CR LF; a field with a comma, quote or line end stands in quotes, and its quotes are doubled.
pub fn write_csv(rows: &dyn Rows, out: &mut dyn Write) -> io::Result<()> {
    write(rows, out, ",", "\r\n", &|line, text| {
        if text
            .bytes()
            .any(|byte| matches!(byte, b',' | b'"' | b'\r' | b'\n'))
        {
            line.push('"');
            line.push_str(&text.replace('"', "\"\""));
            line.push('"');
        } else {
            line.push_str(text);
        }
    })
}

/// A tab, a line end and a backslash in a field are written `\t`, `\n`, `\r` and `\\`.
pub fn write_tsv(rows: &dyn Rows, out: &mut dyn Write) -> io::Result<()> {
    write(rows, out, "\t", "\n", &|line, text| {
        for c in text.chars() {
            match c {
                '\t' => line.push_str("\\t"),
                '\n' => line.push_str("\\n"),
                '\r' => line.push_str("\\r"),
                '\\' => line.push_str("\\\\"),
                _ => line.push(c),
            }
        }
    })
}

fn write(
    rows: &dyn Rows,
    out: &mut dyn Write,
    separator: &str,
    end: &str,
    put: &dyn Fn(&mut String, &str),
) -> io::Result<()> {
    let header = rows.header().join(separator);
    write!(out, "{header}{end}")?;
    let mut line = String::new();
    rows.each(&mut |cells| {
        line.clear();
        for (place, cell) in cells.iter().enumerate() {
            if place > 0 {
                line.push_str(separator);
            }
            match cell {
                Cell::Text(text) => put(&mut line, text),
                Cell::Unknown => line.push('?'),
                Cell::Flag(flag) => line.push(if *flag { '1' } else { '0' }),
                Cell::Number(number) => line.push_str(&number.to_string()),
                Cell::Id(id) => line.push_str(&shown_id(*id)),
            }
        }
        line.push_str(end);
        out.write_all(line.as_bytes())
    })
}
