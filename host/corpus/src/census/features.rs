//! Features of script entries, packages and exports.
use super::{Census, Tables, candidate, candidates, exports};
use crate::decode::{Export, Package};
use crate::kind;
use std::collections::HashSet;

pub const FEATURES: [&str; 70] = [
    "empty batch",
    "Latin-1 above 0x7F",
    "UTF-16",
    "UTF-16 with a surrogate pair",
    "UTF-16 at an odd offset in the strings",
    "UTF-16 at an odd offset in the corpus",
    "name of no characters",
    "name with a dot",
    "name with a colon",
    "name that is a question mark",
    "numbered script object",
    "numbered package name",
    "numbered imported name",
    "numbered export",
    "top bits of a mapped name",
    "script object in a ring",
    "script object with a missing outer",
    "script object with an outer of kind 0",
    "script object with an outer of kind 2",
    "script object with a null outer of low bits",
    "empty package",
    "package of an id that an earlier one has",
    "header size below the block's length",
    "bulk bytes",
    "import map",
    "bundle entries",
    "dependency headers",
    "dependency entries",
    "candidate of kind 1",
    "candidate of kind 1, numbered",
    "candidate of kind 2",
    "class",
    "class in an outer",
    "class and candidate",
    "outer with an outer",
    "outer outside the exports",
    "script reference without a path",
    "import of a class",
    "import of no class",
    "import of hash 0",
    "import outside names or hashes",
    "export of a class",
    "export of no class",
    "export outside the exports",
    "null reference",
    "chain in a ring",
    "package name beyond ASCII",
    "Latin-1 imported name beyond ASCII",
    "UTF-16 imported name beyond ASCII",
    "accents: Latin-1 here and there",
    "accents: Latin-1 here, UTF-16 there",
    "accents: UTF-16 here, Latin-1 there",
    "accents: UTF-16 here and there",
    "accents: capital here, small there",
    "accents: small here, capital there",
    "accents: numbered here",
    "accents: numbered here, written out there",
    "accents: a surrogate pair lowered",
    "accents: found with U+00C9",
    "accents: found with U+0130",
    "accents: found with U+0152",
    "accents: found with U+01C5",
    "accents: found with U+03A9",
    "accents: found with U+03C2",
    "accents: found with U+0414",
    "accents: found with U+1E9E",
    "accents: found with U+212A",
    "accents: found with U+10400",
    "accents: missed, i for U+0130",
    "accents: missed, U+03C3 for U+03C2",
];

pub fn count(census: &mut Census, tables: &Tables) {
    of_script(census, tables);
    let mut ids = HashSet::new();
    for package in &tables.corpus.packages {
        let again = !ids.insert(package.id);
        census.note("package of an id that an earlier one has", again);
        of_package(census, package);
    }
    exports(tables.corpus).for_each(|(i, e)| of_export(census, tables, i, e));
    candidates(tables.corpus).for_each(|(i, e)| of_reference(census, tables, i, e.class));
}

fn of_script(census: &mut Census, tables: &Tables) {
    for entry in &tables.corpus.script.entries {
        let outer = entry.outer;
        let missing = kind(outer) == 1 && !tables.objects.contains_key(&outer);
        census.note("numbered script object", entry.name.1 != 0);
        census.note(
            "script object in a ring",
            tables.outers(entry.global).0.len() == 99,
        );
        census.note("script object with a missing outer", missing);
        census.note("script object with an outer of kind 0", kind(outer) == 0);
        census.note("script object with an outer of kind 2", kind(outer) == 2);
        census.note(
            "script object with a null outer of low bits",
            kind(outer) == 3 && outer != u64::MAX,
        );
    }
}

fn of_package(census: &mut Census, p: &Package) {
    let numbered = p.numbers.iter().filter(|n| **n != 0).count();
    let region = |k: usize| p.regions[k + 1] - p.regions[k];
    census.note("numbered package name", p.name.1 != 0);
    let name = &p.batch.names[p.name.0];
    census.note("package name beyond ASCII", !name.text.is_ascii());
    for name in &p.imported.names {
        let accents = !name.text.is_ascii();
        census.note("Latin-1 imported name beyond ASCII", accents && !name.wide);
        census.note("UTF-16 imported name beyond ASCII", accents && name.wide);
    }
    census.add("numbered imported name", numbered as u64);
    census.note("empty package", p.exports.is_empty());
    census.note(
        "header size below the block's length",
        p.header_end < p.block.end,
    );
    census.note("bulk bytes", !p.bulk().is_empty());
    census.note("import map", region(1) > 0);
    census.note("bundle entries", region(3) > 0);
    census.note("dependency headers", region(4) > 0);
    census.note("dependency entries", region(5) > 0);
}

fn of_export(census: &mut Census, tables: &Tables, i: usize, e: &Export) {
    let p = &tables.corpus.packages[i];
    let class = tables.is_class(e);
    let outer = p.outer(e);
    let row = candidate(p, e);
    let numbered = e.name.1 != 0;
    census.note("numbered export", numbered);
    census.note("top bits of a mapped name", e.top_bits != 0);
    census.note("candidate of kind 1", row == Some(1));
    census.note("candidate of kind 1, numbered", row == Some(1) && numbered);
    census.note("candidate of kind 2", row == Some(2));
    census.note("class", class);
    census.note("class in an outer", class && outer.is_some());
    census.note("class and candidate", class && row.is_some());
    census.note(
        "outer with an outer",
        outer.is_some_and(|o| p.outer(o).is_some()),
    );
    census.note(
        "outer outside the exports",
        kind(e.outer) == 0 && outer.is_none(),
    );
}

/// The class reference of a row in package i.
fn of_reference(census: &mut Census, tables: &Tables, i: usize, index: u64) {
    let key = tables.key(i, index);
    let found = tables.class(i, index).is_some();
    let (line, ends) = tables.outers(index);
    let path = ends && (1..=65).contains(&line.len());
    census.note("script reference without a path", kind(index) == 1 && !path);
    census.note("null reference", kind(index) == 3);
    let (of_class, of_none, outside) = match kind(index) {
        0 => (
            "export of a class",
            "export of no class",
            "export outside the exports",
        ),
        2 => (
            "import of a class",
            "import of no class",
            "import outside names or hashes",
        ),
        _ => return,
    };
    census.note(of_class, found);
    census.note(of_none, key.is_some() && !found);
    census.note(outside, key.is_none());
    census.note(
        "import of hash 0",
        kind(index) == 2 && key.is_some_and(|k| k.1 == 0),
    );
}
