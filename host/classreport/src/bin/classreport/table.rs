//! Rows as a table for people: columns in line, cut where the terminal is too narrow.
use std::borrow::Cow;
use std::io::{self, Write};

use crate::sheet::{Cell, Rows, shown_id};
use crate::terminal::Look;
use crate::text::{fitted, visible_cow, width};

/// No column is made narrower than this.
const NARROWEST: usize = 8;

const GAP: &str = "  ";

pub fn write(rows: &dyn Rows, look: Look, out: &mut dyn Write) -> io::Result<()> {
    let mut widths: Vec<usize> = rows.header().into_iter().map(width).collect();
    rows.each(&mut |cells| {
        for (widest, cell) in widths.iter_mut().zip(cells) {
            *widest = (*widest).max(width(&shown(cell)));
        }
        Ok(())
    })?;
    fit(&mut widths, look.width);
    let header = rows.header().into_iter();
    let names = header.map(|name| (Cow::Borrowed(name), false));
    line(out, &widths, names, &|text| look.bold(text))?;
    rows.each(&mut |cells| {
        let texts = cells.iter().map(|cell| (shown(cell), is_number(cell)));
        let unknown = cells.iter().any(|cell| matches!(cell, Cell::Unknown));
        line(out, &widths, texts, &|text| {
            if unknown {
                look.warn(text)
            } else {
                text.to_owned()
            }
        })
    })
}

fn is_number(cell: &Cell) -> bool {
    matches!(cell, Cell::Number(_))
}

pub fn shown<'a>(cell: &Cell<'a>) -> Cow<'a, str> {
    match cell {
        Cell::Text(text) => visible_cow(text),
        Cell::Unknown => "(unknown)".into(),
        Cell::Flag(flag) => if *flag { "yes" } else { "no" }.into(),
        Cell::Number(number) => number.to_string().into(),
        Cell::Id(id) => shown_id(*id).into(),
    }
}

/// Takes from the widest columns until all fit.
fn fit(widths: &mut [usize], room: Option<usize>) {
    let Some(room) = room else { return };
    let gaps = GAP.len() * widths.len().saturating_sub(1);
    loop {
        let used: usize = widths.iter().sum::<usize>() + gaps;
        let widest = widths.iter().copied().max().unwrap_or_default();
        if used <= room || widest <= NARROWEST {
            return;
        }
        let next = widths.iter().copied().filter(|width| *width < widest).max();
        let count = widths.iter().filter(|width| **width == widest).count();
        // As far as the next widest, or as far as is needed.
        let needed = (used - room).div_ceil(count);
        let floor = next.unwrap_or_default().max(NARROWEST);
        let cut = widest.saturating_sub(needed).max(floor);
        for width in widths.iter_mut().filter(|width| **width == widest) {
            *width = cut.min(widest - 1);
        }
    }
}

/// A line of texts, of which numbers stand to the right.
fn line<'a>(
    out: &mut dyn Write,
    widths: &[usize],
    texts: impl Iterator<Item = (Cow<'a, str>, bool)>,
    coloured: &dyn Fn(&str) -> String,
) -> io::Result<()> {
    let mut line = String::new();
    for (place, ((text, right), room)) in texts.zip(widths).enumerate() {
        let text = fitted(&text, *room);
        let space = " ".repeat(room - width(&text).min(*room));
        let gap = if place > 0 { GAP } else { "" };
        let (before, after) = if right { (&*space, "") } else { ("", &*space) };
        line.push_str(&[gap, before, &text, after].concat());
    }
    writeln!(out, "{}", coloured(line.trim_end()))
}
