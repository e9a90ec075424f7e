//! Corpora for the tests, and their rows as the library has them.
use classreport::{Report, report};
use corpus::{Described, Export, NULL, Package, Text, script_index};

/// Names that a careless writer breaks, and how they are shown to people.
pub(crate) const NAMES: [(&str, &str); 17] = [
    ("plain", "plain"),
    ("a \"quoted\" one", "a \"quoted\" one"),
    ("comma, semicolon; tab\t", "comma, semicolon; tab\\t"),
    ("two\nlines\r\nof it", "two\\nlines\\r\\nof it"),
    ("<script>alert(1)</script>", "<script>alert(1)</script>"),
    ("</td></table>&amp;<!--", "</td></table>&amp;<!--"),
    ("' onload='x", "' onload='x"),
    ("שלום עליכם", "שלום עליכם"),
    ("\u{202e}backwards", "\\u{202e}backwards"),
    ("🎧𝄞 astral", "🎧𝄞 astral"),
    ("\0\u{7}\u{7f}\u{85}", "\\u{0}\\u{7}\\u{7f}\\u{85}"),
    ("\u{feff}mark", "\\u{feff}mark"),
    ("=1+1", "=1+1"),
    ("back\\slash\\n", "back\\slash\\n"),
    (" spaces ", " spaces "),
    ("?", "?"),
    ("", ""),
];

/// A package with this name and a row for each of `NAMES`, whose class has the same name; the last row's is not there.
pub(crate) fn odd_names() -> Vec<u8> {
    let mut build = Described::default();
    let mut package = Package {
        names: vec![Text::of("/Game/\"<b>\", &\u{202e}")],
        ..Package::default()
    };
    for (number, (name, _)) in (0..).zip(NAMES) {
        let class = build.add_object(Text::of(name), 0, script_index(number), NULL);
        add_row(&mut package, name, class);
    }
    add_row(&mut package, "missing", script_index(99));
    build.packages.push((0x12, package));
    build.bytes()
}

pub(crate) fn add_row(package: &mut Package, name: &str, class: u64) {
    let name = package.add_name(Text::of(&format!("{name}_GEN_VARIABLE")));
    package.exports.push(Export {
        name,
        number: 0,
        outer: NULL,
        class,
        super_index: NULL,
        hash: 0,
    });
}

/// So many rows in packages of a thousand.
pub(crate) fn many(rows: u32) -> Vec<u8> {
    let mut build = Described::default();
    for number in 0..7 {
        build.add_object(
            Text::of(&format!("/Script/N{number}")),
            0,
            script_index(number),
            NULL,
        );
    }
    for from in (0..rows).step_by(1000) {
        let mut package = Package {
            names: vec![Text::of(&format!("/Game/P{from}"))],
            ..Package::default()
        };
        for row in from..rows.min(from + 1000) {
            add_row(
                &mut package,
                &format!("Tone{row}"),
                script_index(u64::from(row % 8)),
            );
        }
        build.packages.push((u64::from(from), package));
    }
    build.bytes()
}

/// The header and all rows as `show -f csv` has them, without quotes.
pub(crate) fn fields(corpus: &[u8]) -> Vec<Vec<String>> {
    let header = "id,package,instance,export,outer,kind,numbered,class_kind,class_known,class,native_known,native,reference";
    let mut all = vec![header.split(',').map(str::to_owned).collect()];
    let report: Report = report(corpus).expect("accepted");
    for (section, row) in report.rows() {
        let flag = |flag: bool| if flag { "1" } else { "0" }.to_owned();
        all.push(vec![
            format!("0x{:016x}", section.id),
            section.name.to_owned(),
            row.instance.to_owned(),
            row.export.to_owned(),
            row.outer.to_owned(),
            if row.kind.number() == 1 {
                "template"
            } else {
                "default"
            }
            .to_owned(),
            flag(row.numbered),
            row.class_kind.words().to_owned(),
            flag(row.class.is_some()),
            row.class.unwrap_or("?").to_owned(),
            flag(row.native.is_some()),
            row.native.unwrap_or("?").to_owned(),
            row.reference.to_owned(),
        ]);
    }
    all
}
