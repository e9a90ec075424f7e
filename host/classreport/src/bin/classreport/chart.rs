//! Counts by native class as a bar chart in SVG.
use std::io::{self, Write};

use crate::markup::escaped;
use crate::summary::Counts;

/// The most bars; further classes share one.
const BARS: usize = 40;

/// The height of a bar with its label.
const LINE: usize = 40;

struct Bar {
    label: String,
    rows: u64,
    unknown: bool,
}

pub fn write(counts: &Counts, out: &mut dyn Write) -> io::Result<()> {
    let bars = bars(counts);
    let most = bars.iter().map(|bar| bar.rows).max().unwrap_or(1);
    let height = LINE * bars.len();
    writeln!(out, "<h2>Rows by native class</h2>")?;
    writeln!(
        out,
        "<svg role=\"img\" aria-label=\"Rows by native class\" width=\"100%\" height=\"{height}\">"
    )?;
    for (
        place,
        Bar {
            label,
            rows,
            unknown,
        },
    ) in bars.iter().enumerate()
    {
        let width = (*rows as f64 / most as f64 * 85.0).max(0.2);
        let (text, bar, label) = (LINE * place + 13, LINE * place + 18, escaped(label));
        let class = if *unknown { " class=\"unknown\"" } else { "" };
        writeln!(
            out,
            "<g{class}><text x=\"0\" y=\"{text}\">{label}: {rows}</text>"
        )?;
        writeln!(
            out,
            "<rect x=\"0\" y=\"{bar}\" width=\"{width:.2}%\" height=\"12\"/></g>"
        )?;
    }
    writeln!(out, "</svg>")
}

/// A bar for each native class, and one for those that are too many.
fn bars(counts: &Counts) -> Vec<Bar> {
    let all: Vec<_> = counts.natives().collect();
    let (shown, rest) = all.split_at(all.len().min(BARS));
    let own = shown.iter().map(|(native, rows)| Bar {
        label: native.unwrap_or("(unknown)").to_owned(),
        rows: *rows,
        unknown: native.is_none(),
    });
    let others = (!rest.is_empty()).then(|| Bar {
        label: format!("{} more", rest.len()),
        rows: rest.iter().map(|(_, rows)| *rows).sum(),
        unknown: false,
    });
    own.chain(others).collect()
}
