//! Corpora with the hashes of their names have all that is to be told apart, right and wrong.
use std::collections::BTreeMap;

use corpus::generate::hashed;
use corpus::name::{id, lower, path_index, rendered};
use corpus::{Described, Text};

/// The longest path that is known, and one more.
const LONGEST: usize = 66;

/// How often each thing was there.
#[derive(Default)]
struct Seen(BTreeMap<String, u64>);

impl Seen {
    fn note(&mut self, what: String, there: bool) {
        *self.0.entry(what).or_default() += u64::from(there);
    }

    /// Notes a thing that has the hash of its name, or another.
    fn hashed(&mut self, what: &str, there: bool, right: bool) {
        for (is, words) in [(right, "right"), (!right, "wrong")] {
            self.note(format!("{what}, {words}"), there && is);
        }
    }

    fn paths(&mut self, corpus: &Described) {
        for (index, path) in corpus.paths() {
            let Some(path) = path else { continue };
            let text = path.text();
            let right = path_index(&text) == index;
            let own = &path.names[path.names.len() - 1];
            let depth = path.names.len().min(LONGEST);
            self.hashed(&format!("a path of {depth}"), true, right);
            for (what, there) in [
                ("`.` in a name", own.contains('.')),
                ("`:` in a name", own.contains(':')),
                ("a name beyond ASCII", !own.is_ascii()),
                ("a surrogate pair", own.chars().any(|c| c > '\u{ffff}')),
                ("U+0130", own.contains('İ')),
                ("an empty name", own.is_empty()),
                ("a capital", own.chars().any(|c| lower(c) != c)),
                ("an instance number", *own != path.base),
                ("a path of more than 64 units", text.chars().count() > 64),
            ] {
                self.hashed(what, there, right);
            }
        }
    }

    /// Texts of both widths, in names of objects and of packages.
    fn widths(&mut self, corpus: &Described) {
        let packages = corpus.packages.iter().flat_map(|(_, p)| &p.names);
        for text in corpus.names.iter().chain(packages) {
            let (wide, ascii) = (matches!(text, Text::Utf16(_)), text.text().is_ascii());
            for (is_wide, is_ascii) in [(false, false), (false, true), (true, false), (true, true)]
            {
                let what = format!("wide {is_wide}, ASCII {is_ascii}");
                self.note(what, (wide, ascii) == (is_wide, is_ascii));
            }
        }
    }

    fn packages(&mut self, corpus: &Described) {
        for (own, package) in &corpus.packages {
            let (place, number) = package.name;
            let base = package.names[place as usize & 0x3fff_ffff].text();
            let whole = id(&rendered(&base, number));
            self.hashed("a package", true, *own == whole);
            for (what, there) in [
                ("an id right in 62 bits", own << 2 == whole << 2),
                ("an id wrong in one bit", (own ^ whole).is_power_of_two()),
                ("the id of the base", *own == id(&base)),
            ] {
                self.note(what.to_owned(), there && *own != whole);
            }
        }
    }
}

#[test]
fn all_of_it_right_and_wrong() {
    let mut seen = Seen::default();
    for depth in 1..=LONGEST {
        seen.hashed(&format!("a path of {depth}"), false, true);
    }
    for corpus in (0..4_000).map(hashed) {
        seen.paths(&corpus);
        seen.widths(&corpus);
        seen.packages(&corpus);
    }
    for (what, n) in &seen.0 {
        println!("{what}: {n}");
        assert!(*n > 0, "{what}: never");
    }
}
