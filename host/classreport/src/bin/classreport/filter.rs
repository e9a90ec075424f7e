//! Which rows are shown.
use classreport::{Report, Row, Section};

use crate::args::Words;
use crate::failure::Failure;
use crate::sheet::shown_id;

/// What `--package`, `--native` and `--unknown` ask for.
#[derive(Debug, Clone, Default)]
pub struct Filter {
    package: Option<String>,
    native: Option<String>,
    unknown: bool,
    /// an export's or instance's name
    component: Option<String>,
}

impl Filter {
    pub fn of(words: &Words) -> Result<Filter, Failure> {
        Ok(Filter {
            package: words.text("package")?.map(str::to_owned),
            native: words.text("native")?.map(str::to_owned),
            unknown: words.has("unknown"),
            component: None,
        })
    }

    /// Only rows whose export or instance has this name.
    pub fn of_component(mut self, name: &str) -> Filter {
        self.component = Some(name.to_owned());
        self
    }

    /// The sections that it takes.
    pub fn sections<'a>(&self, report: &'a Report) -> impl Iterator<Item = Section<'a>> {
        report
            .sections()
            .filter(|section| self.takes_section(section))
    }

    /// The rows of a section that it takes.
    pub fn rows<'a>(&self, section: &Section<'a>) -> impl Iterator<Item = Row<'a>> {
        section.rows().filter(|row| self.takes_row(row))
    }

    /// By the package's name, or its id as it is shown.
    pub fn takes_section(&self, section: &Section) -> bool {
        let Some(glob) = &self.package else {
            return true;
        };
        matches(glob, section.name) || *glob == shown_id(section.id)
    }

    pub fn takes_row(&self, row: &Row) -> bool {
        let native = |part: &String| row.native.is_some_and(|native| native.contains(part));
        let named = |name: &String| row.export == name || row.instance == name;
        let known = row.class.is_some() && row.native.is_some();
        self.native.as_ref().is_none_or(native)
            && self.component.as_ref().is_none_or(named)
            && !(self.unknown && known)
    }
}

/// Whether a text fits a pattern in which `*` stands for any characters and `?` for any one.
fn matches(glob: &str, text: &str) -> bool {
    let (glob, text): (Vec<char>, Vec<char>) = (glob.chars().collect(), text.chars().collect());
    let (mut g, mut t) = (0, 0);
    // where to go on when a star takes one character more
    let mut star = None;
    while t < text.len() {
        match glob.get(g) {
            Some('*') => {
                star = Some((g, t));
                g += 1;
            }
            Some(c) if *c == '?' || *c == text[t] => {
                g += 1;
                t += 1;
            }
            _ => match star {
                Some((at, taken)) => {
                    star = Some((at, taken + 1));
                    g = at + 1;
                    t = taken + 1;
                }
                None => return false,
            },
        }
    }
    glob[g..].iter().all(|c| *c == '*')
}

#[cfg(test)]
mod tests {
    use super::matches;

    #[test]
    fn globs() {
        for (glob, text, fits) in [
            ("", "", true),
            ("*", "", true),
            ("/Game/*", "/Game/Booth", true),
            ("*Booth*", "/Game/BP_Booth", true),
            ("*a*b?d", "xaybzbcd", true),
            ("?", "", false),
            ("a", "ab", false),
            ("*.x", "a.xy", false),
            ("*a*a*a*b", &"a".repeat(3_000), false),
            ("?🎧", "ö🎧", true),
        ] {
            assert_eq!(matches(glob, text), fits, "{glob}");
        }
    }
}
