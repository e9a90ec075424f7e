//! The committed tables of lowering against the compiler's mappings.
use std::fs;

/// What is to be done where this fails.
const ANEW: &str = "where the compiler has another Unicode version, both tables move with it, knowingly: \
    `cargo run -p text --bin lower_pairs` prints them anew, and the theorems about them are proved again";

/// Every character whose lowercase mapping is one other character, with that.
fn mapped() -> Vec<(u32, u32)> {
    let one = |c: char| {
        let all: Vec<char> = c.to_lowercase().collect();
        let [low] = all[..] else { return None };
        (low != c).then_some((c.into(), low.into()))
    };
    ('\0'..=char::MAX).filter_map(one).collect()
}

#[test]
fn the_unicode_version() {
    assert_eq!(char::UNICODE_VERSION, (17, 0, 0), "{ANEW}");
}

/// The pairs, by their own laws: rising, no second is a first, none leaves its plane or its leading surrogate; and U+0130,
/// the one character whose mapping is several, has none.
#[test]
fn the_mappings() {
    the_unicode_version();
    let pairs = mapped();
    assert_eq!(pairs.len(), 1_487, "{ANEW}");
    assert!(pairs.is_sorted_by_key(|(c, _)| c));
    let first = |n: u32| pairs.binary_search_by_key(&n, |(c, _)| *c).is_ok();
    assert!(pairs.iter().all(|(_, low)| !first(*low)));
    assert!(pairs.iter().all(|(c, low)| c >> 16 == low >> 16));
    let mut above = pairs.iter().filter(|(c, _)| *c > 0xffff);
    assert!(above.all(|(c, low)| c >> 10 == low >> 10));
    let several = ('\0'..=char::MAX).filter(|c| c.to_lowercase().count() > 1);
    assert_eq!(several.collect::<Vec<_>>(), ['\u{130}']);
}

/// The hexadecimal numbers in the lines of a file that start so, spaces apart, two and two.
fn committed(file: &str, start: &str) -> Vec<(u32, u32)> {
    let path = format!("{}/../../{file}", env!("CARGO_MANIFEST_DIR"));
    let text = fs::read_to_string(path).unwrap_or_else(|error| panic!("{file}: {error}"));
    let lines = text
        .lines()
        .filter(|line| line.trim_start().starts_with(start));
    let numbers: Vec<u32> = lines.flat_map(hexadecimal).collect();
    let (pairs, left) = numbers.as_chunks();
    assert!(left.is_empty(), "{file}: a number is left");
    pairs.iter().map(|[c, low]| (*c, *low)).collect()
}

/// The numbers of a line that are written `0x..`.
fn hexadecimal(line: &str) -> impl Iterator<Item = u32> {
    line.split("0x").skip(1).map(|rest| {
        let digits = rest.split(|c: char| !c.is_ascii_hexdigit()).next();
        u32::from_str_radix(digits.unwrap_or_default(), 16).expect("a number")
    })
}

/// Tells the first pair that differs, not all of them.
fn same(file: &str, start: &str) {
    the_unicode_version();
    let (table, compiler) = (committed(file, start), mapped());
    let differs = (0..compiler.len().max(table.len())).find(|i| table.get(*i) != compiler.get(*i));
    let at = differs.map(|i| (i, table.get(i), compiler.get(i)));
    assert_eq!(at, None, "{file}: pair, table's, compiler's; {ANEW}");
}

#[test]
fn the_table_of_the_definition() {
    same("crates/lower/specs/Table.antt", "(0x");
}

#[test]
fn the_table_of_the_code() {
    same("crates/lower/src/table.rt", "(0x");
}
