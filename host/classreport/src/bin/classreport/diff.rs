//! `diff`: what changed from one report to another. Sections are matched by package id, whatever their order, and rows by
//! the names of their exports.
use std::collections::{BTreeMap, BTreeSet, HashMap, VecDeque};

use classreport::{Report, Row, Section};

use crate::args::Words;
use crate::columns::{self, Column};
use crate::failure::Failure;
use crate::input::either;
use crate::limits;
use crate::output;
use crate::table::shown;
use crate::terminal::Look;
use crate::text::visible;

pub fn run(words: &Words) -> Result<u8, Failure> {
    let look = Look::of(words)?;
    let (old, new) = (either(words, 0)?, either(words, 1)?);
    if limits::given(words) && old.source.is_none() && new.source.is_none() {
        let made = "both are reports, and the limits are those of the calls that made them";
        return Err(Failure::usage(made));
    }
    let mut found = Differences::new(look);
    found.reports(&old.report, &new.report);
    let text = found.text();
    if !words.has("quiet") {
        output::write_text(words, &text)?;
    }
    Ok(u8::from(found.sections > 0))
}

/// What was found so far.
struct Differences {
    look: Look,
    lines: Vec<String>,
    sections: u64,
    rows: u64,
}

fn by_id<'a>(report: &'a Report) -> BTreeMap<u64, Vec<Section<'a>>> {
    let mut all: BTreeMap<u64, Vec<Section>> = BTreeMap::new();
    for section in report.sections() {
        all.entry(section.id).or_default().push(section);
    }
    all
}

/// Takes out what both have alike; each is left in the order of names.
fn unlike<'a>(old: &mut Vec<Section<'a>>, new: &mut Vec<Section<'a>>) {
    let (before, after) = (counted(old), counted(new));
    leave(old, after);
    leave(new, before);
}

/// How often each section's bytes occur.
fn counted<'a>(sections: &[Section<'a>]) -> HashMap<&'a [u8], u64> {
    let mut counts = HashMap::new();
    for section in sections {
        *counts.entry(section.bytes()).or_default() += 1;
    }
    counts
}

/// Takes out as many as the other side has of each.
fn leave<'a>(sections: &mut Vec<Section<'a>>, mut there: HashMap<&'a [u8], u64>) {
    sections.retain(|section| match there.get_mut(section.bytes()) {
        Some(count) if *count > 0 => {
            *count -= 1;
            false
        }
        _ => true,
    });
    sections.sort_by_key(|section| section.name);
}

impl Differences {
    fn new(look: Look) -> Differences {
        Differences {
            look,
            lines: Vec::new(),
            sections: 0,
            rows: 0,
        }
    }

    fn reports(&mut self, old: &Report, new: &Report) {
        let (mut old, mut new) = (by_id(old), by_id(new));
        let ids: BTreeSet<u64> = old.keys().chain(new.keys()).copied().collect();
        for id in ids {
            let mut before = old.remove(&id).unwrap_or_default();
            let mut after = new.remove(&id).unwrap_or_default();
            unlike(&mut before, &mut after);
            for place in 0..before.len().max(after.len()) {
                self.pair(before.get(place), after.get(place));
            }
        }
    }

    /// Sections of one id that are not alike, or one alone.
    fn pair(&mut self, old: Option<&Section>, new: Option<&Section>) {
        let from = self.lines.len();
        match (old, new) {
            (Some(old), Some(new)) => self.both(old, new),
            (Some(old), None) => self.only(old, "-"),
            (None, Some(new)) => self.only(new, "+"),
            (None, None) => {}
        }
        let Some(section) = old.or(new).filter(|_| self.lines.len() > from) else {
            return;
        };
        self.sections += 1;
        let head = format!(
            "package {} (id {:#018x})",
            visible(section.name),
            section.id
        );
        self.lines.insert(from, self.look.bold(&head));
    }

    fn only(&mut self, section: &Section, sign: &str) {
        let what = if sign == "+" { "new" } else { "gone" };
        self.line(
            sign,
            &format!("the section is {what}, with {} rows", section.row_count),
        );
        self.rows += u64::from(section.row_count);
    }

    fn both(&mut self, old: &Section, new: &Section) {
        if old.name != new.name {
            let (old, new) = (visible(old.name), visible(new.name));
            self.line("~", &format!("name: {old} -> {new}"));
        }
        if old.exports != new.exports {
            self.line("~", &format!("exports: {} -> {}", old.exports, new.exports));
        }
        let mut after = by_export(new);
        for row in old.rows() {
            let others = after.get_mut(row.export);
            match others.and_then(VecDeque::pop_front) {
                Some(other) => self.row(&row, &other, old, new),
                None => self.alone("-", &row),
            }
        }
        for row in after.values().flatten() {
            self.alone("+", row);
        }
    }

    fn alone(&mut self, sign: &str, row: &Row) {
        self.rows += 1;
        let native = row.native.map_or("(unknown)".to_owned(), visible);
        self.line(sign, &format!("{}: native {native}", visible(row.export)));
    }

    /// Each column in which two rows differ.
    fn row(&mut self, row: &Row, other: &Row, old: &Section, new: &Section) {
        if row == other {
            return;
        }
        self.rows += 1;
        for Column { name, cell } in columns::ALL
            .iter()
            .filter(|column| !matches!(column.name, "id" | "package"))
        {
            let (before, after) = (cell(old, row), cell(new, other));
            let (before, after) = (shown(&before), shown(&after));
            if before != after {
                let export = visible(row.export);
                self.line("~", &format!("{export}: {name}: {before} -> {after}"));
            }
        }
    }

    fn line(&mut self, sign: &str, text: &str) {
        let line = format!("  {sign} {text}");
        self.lines.push(match sign {
            "+" => self.look.added(&line),
            "-" => self.look.removed(&line),
            _ => self.look.warn(&line),
        });
    }

    fn text(&self) -> String {
        if self.sections == 0 {
            return "no difference\n".to_owned();
        }
        let Differences { sections, rows, .. } = self;
        format!(
            "{}\n{sections} sections and {rows} rows differ\n",
            self.lines.join("\n")
        )
    }
}

fn by_export<'a>(section: &Section<'a>) -> BTreeMap<&'a str, VecDeque<Row<'a>>> {
    let mut all: BTreeMap<&str, VecDeque<Row>> = BTreeMap::new();
    for row in section.rows() {
        all.entry(row.export).or_default().push_back(row);
    }
    all
}
