//! Ids of names of all planes, by layer 1 and of a package's imported names by layer 2, against the reference's hash of the
//! rendered name; and the imported names that have none.
use std::sync::LazyLock;

use corpus::generate::Random;
use corpus::name::{lower, pairs, rendered};
use corpus::{Package, Text};
use oracle::cityhash::hash_package_name;
use oracle::question::question;
use oracle::zen::parse_package_header;

const NAMES: usize = 100_000;

/// How many names a package imports.
const IMPORTED: usize = 50;

/// Every character that lowering changes, and those that it makes.
static LETTERS: LazyLock<Vec<char>> = LazyLock::new(|| {
    pairs()
        .flat_map(|(capital, small)| [capital, small])
        .collect()
});

/// A character that a name of this width can have.
fn character(r: &mut Random, wide: bool) -> char {
    let c = match r.below(8) {
        0..2 => char::from_u32(r.below(0x11_0000) as u32),
        2..5 => Some(*r.pick(&LETTERS)),
        5 => char::from_u32(r.below(0x100) as u32),
        _ => char::from_u32(0x41 + r.below(58) as u32),
    };
    let c = c.unwrap_or('\u{130}');
    if wide { c } else { char::from(c as u8) }
}

/// A name, how it is stored, and its instance number.
struct Name {
    base: String,
    text: Text,
    number: u32,
}

fn name(r: &mut Random) -> Name {
    let wide = r.chance(50);
    let most = *r.pick(&[4, 20, 70, 300]);
    let base: String = (0..r.below(most)).map(|_| character(r, wide)).collect();
    let text = if wide {
        Text::wide(&base)
    } else {
        Text::of(&base)
    };
    let number = match r.below(3) {
        0 => 0,
        1 => 1 + r.below(300) as u32,
        _ => r.next() as u32,
    };
    Name { base, text, number }
}

/// What the names had.
#[derive(Default)]
struct Seen {
    planes: [u64; 17],
    /// names that lowering changes: beyond ASCII in one byte, in wide text, and in a surrogate pair
    lowered: [u64; 3],
    numbered: u64,
}

impl Seen {
    fn add(&mut self, name: &Name) {
        let changed = || {
            name.base
                .chars()
                .filter(|c| !c.is_ascii() && lower(*c) != *c)
        };
        let wide = matches!(name.text, Text::Utf16(_));
        self.lowered[usize::from(wide)] += u64::from(changed().next().is_some());
        self.lowered[2] += u64::from(changed().any(|c| c > '\u{ffff}'));
        self.numbered += u64::from(name.number != 0);
        for c in name.base.chars() {
            self.planes[c as usize >> 16] += 1;
        }
    }
}

/// Whether a name is wide, and its bytes.
fn stored(text: &Text) -> (bool, Vec<u8>) {
    let mut part = Vec::new();
    text.write(&mut part);
    (matches!(text, Text::Utf16(_)), part)
}

fn importing(imported: Vec<(Text, u32)>) -> Package {
    Package {
        names: vec![Text::of("/P")],
        imported,
        ..Package::default()
    }
}

#[test]
fn names_of_all_planes() {
    let mut r = Random(11);
    let mut seen = Seen::default();
    for _ in 0..NAMES / IMPORTED {
        let names: Vec<Name> = (0..IMPORTED).map(|_| name(&mut r)).collect();
        let imported = names.iter().map(|n| (n.text.clone(), n.number)).collect();
        let block = importing(imported).bytes();
        assert_eq!(zen::check_package(&block), 0);
        for (i, name) in names.iter().enumerate() {
            seen.add(name);
            let text = rendered(&name.base, name.number);
            let id = hash_package_name(&text);
            let (wide, part) = stored(&name.text);
            assert_eq!(text::name_id(&part, wide, name.number), id, "{text:?}");
            assert_eq!(zen::imported_id(&block, i), id, "{text:?}");
        }
    }
    let Seen {
        planes,
        lowered: [one_byte, wide, pairs],
        numbered,
    } = seen;
    println!(
        "{NAMES} names, {numbered} numbered; lowered beyond ASCII: {one_byte} of one byte to a character, {wide} wide"
    );
    println!("{pairs} of them in surrogate pairs; characters of each plane: {planes:?}");
    assert!(planes.iter().all(|n| *n > 1_000));
    assert!(
        [one_byte, wide, pairs, numbered]
            .iter()
            .all(|n| *n > 10_000)
    );
}

/// Every two spellings of a character have one id, alone and in a name.
#[test]
fn each_letter_has_the_id_of_its_capital() {
    for (capital, small) in pairs() {
        for (before, behind) in [("", ""), ("/Œ", "É\u{10400}")] {
            let ids = [capital, small].map(|c| {
                let text = format!("{before}{c}{behind}");
                let (wide, part) = stored(&Text::of(&text));
                let id = text::name_id(&part, wide, 0);
                assert_eq!(id, hash_package_name(&text), "{text:?}");
                id
            });
            assert_eq!(ids[0], ids[1], "{capital:?}");
        }
    }
}

/// Halves of surrogate pairs, among them those that lowering would change, alone and behind accents: 6, and no id.
#[test]
fn ill_formed_imported_names() {
    let halves = [0xd801, 0xd83a, 0xdbff, 0xdc00, 0xdc27, 0xdfff];
    let mut refused = 0;
    for half in halves {
        for units in [
            vec![half],
            vec![half, 0xc9],
            vec![0xc9, 0x152, half],
            vec![0xd801, 0xdc00, half],
            vec![half, 0xd801, 0xdc00],
            vec![half, half],
        ] {
            let text = Text::Utf16(units);
            let (wide, part) = stored(&text);
            assert_eq!(text::name_id(&part, wide, 0), 0, "{text:04x?}");
            let block = importing(vec![(Text::of("/É"), 0), (text, 2)]).bytes();
            let error = parse_package_header(&block).expect_err("ill-formed");
            assert_eq!(question(&error.0), Some(6));
            assert_eq!(zen::check_package(&block), 6);
            assert_eq!(zen::imported_id(&block, 0), zen::NONE);
            refused += 1;
        }
    }
    assert_eq!(refused, 36);
}
