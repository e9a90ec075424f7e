//! Names with quotes, commas, line ends, markup, right-to-left and astral characters, in every format.
use crate::python::read_back;
use crate::rows::{NAMES, fields, many, odd_names};
use crate::tool::Place;

/// Comma-separated values as RFC 4180 has them.
fn read_csv(text: &str) -> Vec<Vec<String>> {
    let mut rows = vec![vec![String::new()]];
    let mut quoted = false;
    let mut chars = text.chars().peekable();
    while let Some(c) = chars.next() {
        let row = rows.last_mut().expect("a row");
        match c {
            '"' if quoted && chars.peek() == Some(&'"') => {
                chars.next();
                row.last_mut().expect("a field").push('"');
            }
            '"' => quoted = !quoted,
            ',' if !quoted => row.push(String::new()),
            '\r' if !quoted => {
                assert_eq!(chars.next(), Some('\n'));
                rows.push(vec![String::new()]);
            }
            '\n' if !quoted => panic!("a line that ends without CR"),
            _ => row.last_mut().expect("a field").push(c),
        }
    }
    assert_eq!(
        rows.pop(),
        Some(vec![String::new()]),
        "the last line has an end"
    );
    rows
}

#[test]
fn csv_tsv_and_jsonl_give_back_every_name() {
    let place = Place::new("texts");
    let corpus = odd_names();
    place.write("odd.corpus", &corpus);
    let expected = fields(&corpus);
    assert_eq!(
        read_csv(&place.done(&["show", "-f", "csv", "odd.corpus"])),
        expected
    );
    for mode in ["csv", "tsv", "jsonl"] {
        place.done(&["show", "-f", mode, "odd.corpus", "-o", mode]);
        if let Some(rows) = read_back(mode, &place.0.join(mode)) {
            assert_eq!(rows, expected, "{mode}");
        }
    }
}

/// A table has one line for each row, whatever the names hold.
#[test]
fn a_table_shows_what_is_hidden() {
    let place = Place::new("texts-table");
    place.write("odd.corpus", &odd_names());
    let table = place.done(&["show", "--columns", "native_known,native", "odd.corpus"]);
    let lines: Vec<&str> = table.lines().collect();
    assert_eq!(lines.len(), NAMES.len() + 2);
    for (line, (_, shown)) in lines[1..].iter().zip(NAMES) {
        assert_eq!(*line, format!("yes           {shown}").trim_end());
    }
    assert_eq!(lines[NAMES.len() + 1], "no            (unknown)");
    assert!(!table.contains(['\u{202e}', '\0', '\r']));
}

#[test]
fn a_table_fits_where_it_must() {
    let place = Place::with_example("texts-width");
    for width in ["40", "60", "100"] {
        let table = place.done(&["show", "booth", "--width", width]);
        let widest = table.lines().map(|line| line.chars().count()).max();
        assert!(widest <= width.parse().ok(), "{width}\n{table}");
        assert_eq!(table.lines().count(), 7);
    }
    let narrow = place.done(&["show", "booth", "--width", "1"]);
    assert!(narrow.lines().all(|line| line.chars().count() <= 4 * 8 + 6));
    let coloured = place.done(&["show", "booth", "--color", "always"]);
    assert!(coloured.starts_with("\u{1b}[1mpackage"));
    assert!(coloured.contains("\u{1b}[33m"));
}

#[test]
fn a_hundred_thousand_rows() {
    let place = Place::new("texts-many");
    let corpus = many(100_000);
    place.write("many.corpus", &corpus);
    place.done(&["report", "many.corpus", "-o", "many.report"]);
    let csv = place.done(&["show", "-f", "csv", "many.report"]);
    assert_eq!(read_csv(&csv), fields(&corpus));
    assert_eq!(
        place.done(&["show", "many.report"]).lines().count(),
        100_001
    );
    let unknown = place.done(&["show", "--unknown", "-f", "jsonl", "many.corpus"]);
    assert_eq!(unknown.lines().count(), 12_500);
    let summary = place.done(&["summary", "-f", "csv", "many.report"]);
    assert_eq!(
        summary
            .lines()
            .filter(|line| line.ends_with(",12500"))
            .count(),
        8
    );
    place.done(&["show", "-f", "html", "many.corpus", "-o", "many.html"]);
    let page = String::from_utf8(place.read("many.html")).expect("UTF-8");
    assert_eq!(page.matches("<tr").count(), 100_001);
    assert_eq!(page.matches("href=\"#chain-").count(), 100_000);
}
