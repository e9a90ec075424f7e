//! Step by step: paths of 1 to 66 objects, each wrong bit of an index and of an id, and what a careless reader would take
//! for right.
use corpus::name::{id, path_index};
use corpus::{Described, NULL, Package, Text, script_index};

use super::{HEAD, Verifies, counts};
use crate::asked::Asked;

/// Asks all three with work buffers of several lengths: the four counts and the flags.
fn asked(corpus: &Described) -> ([u64; 4], Vec<u8>) {
    let corpus = corpus.bytes();
    let mut asked = Asked::<Verifies>::new(15);
    let room = corpus.len();
    let answers = [0, 64, 2 * corpus.len()].map(|work| asked.ask(&corpus, work, room));
    let output = answers[0].clone().expect("accepted");
    assert!(answers.iter().all(|answer| answer.as_ref() == Ok(&output)));
    (counts(&output), output[HEAD..].to_vec())
}

/// A block of one object with this name and index.
fn object(name: Text, number: u32, global: u64) -> Described {
    let mut corpus = Described::default();
    corpus.add_object(name, number, global, NULL);
    corpus
}

/// Whether the only object of a block has the hash of its path.
fn matches(name: Text, number: u32, global: u64) -> bool {
    match asked(&object(name, number, global)).0 {
        [1, 1, 1, 0] => true,
        [1, 1, 0, 1] => false,
        other => panic!("{other:?}"),
    }
}

#[test]
fn paths_of_1_to_66_objects() {
    let names = ["/Script/A", "b.c", "D:e", "É", "Ωmega", "𐐀", "", "İ"];
    let mut corpus = Described::default();
    let (mut outer, mut path) = (NULL, String::new());
    for depth in 0..66_u64 {
        let name = names[depth as usize % names.len()];
        path += match depth {
            0 => "",
            2 => ":",
            _ => ".",
        };
        path += name;
        let text = if depth % 2 == 0 {
            Text::wide(name)
        } else {
            Text::of(name)
        };
        outer = corpus.add_object(text, 0, path_index(&path), outer);
        let objects = depth + 1;
        let resolved = objects.min(65);
        assert_eq!(asked(&corpus).0, [objects, resolved, resolved, 0]);
        // Wrong, it is a mismatch; too deep, it is none.
        let mut wrong = corpus.clone();
        wrong.entries[depth as usize].global ^= 1;
        let less = resolved.min(depth);
        assert_eq!(asked(&wrong).0, [objects, resolved, less, resolved - less]);
    }
}

/// The low 62 bits count, each of them.
#[test]
fn each_bit_of_an_index() {
    let mut tops = [0; 4];
    for i in 0..64 {
        let name = format!("/Script/Object{i}");
        let index = path_index(&name);
        tops[(id(&name) >> 62) as usize] += 1;
        assert!(matches(Text::of(&name), 0, index), "{name}");
        if i < 62 {
            assert!(!matches(Text::of(&name), 0, index ^ 1 << i), "bit {i}");
        }
    }
    assert!(tops.iter().all(|n| *n > 0), "top bits of hashes: {tops:?}");
}

/// All 64 bits of an id count.
#[test]
fn each_bit_of_an_id() {
    let package = Package {
        names: vec![Text::of("/Game/École")],
        ..Package::default()
    };
    let own = id("/game/école");
    let mut corpus = Described::default();
    let wrong = (0..64).map(|bit| own ^ 1 << bit);
    let ids = [own].into_iter().chain(wrong).chain([own]);
    corpus.packages = ids.map(|id| (id, package.clone())).collect();
    let flags = asked(&corpus).1;
    assert_eq!(flags.len(), 66);
    assert!(
        flags
            .iter()
            .enumerate()
            .all(|(i, flag)| *flag == u8::from(i % 65 == 0))
    );
}

/// Separators inside a name are turned too; letters are lowered; the instance number counts.
#[test]
fn names_of_objects() {
    for (name, number, hashed, right) in [
        ("a.b:c", 0, "a/b/c", true),
        ("a.b:c", 0, "a.b:c", false),
        ("a:b", 0, "a:b", false),
        ("a.b", 0, "a.b", false),
        (".:", 0, "//", true),
        ("", 0, "", true),
        ("_", 0, "", false),
        ("É", 0, "é", true),
        ("Ω", 0, "ω", true),
        ("\u{2126}", 0, "ω", true),
        ("𐐀", 0, "𐐨", true),
        ("İ", 0, "İ", true),
        ("İ", 0, "i", false),
        ("ΑΣ", 0, "ασ", true),
        ("ΑΣ", 0, "ας", false),
        ("A", 1, "a_0", true),
        ("A", 1, "a", false),
        ("A", u32::MAX, "a_4294967294", true),
    ] {
        // What isn't to be turned or lowered is hashed as it stands.
        let units: Vec<[u8; 2]> = hashed.encode_utf16().map(u16::to_le_bytes).collect();
        let index = script_index(cityhasher::hash(units.as_flattened()) % (1 << 62));
        for text in [Text::of(name), Text::wide(name)] {
            assert_eq!(
                matches(text, number, index),
                right,
                "{name} {number}, {hashed}"
            );
        }
    }
}

/// Rendered, not base; no separator of a package's name is turned.
#[test]
fn names_of_packages() {
    let mut corpus = Described::default();
    for (name, number, hashed) in [
        ("/Game/A.b:c", 0, "/game/a.b:c"),
        ("/Game/A.b:c", 0, "/game/a/b/c"),
        ("/Game/A", 3, "/game/a_2"),
        ("/Game/A", 3, "/game/a"),
        ("", 0, ""),
    ] {
        let package = Package {
            names: vec![Text::of("other"), Text::of(name)],
            name: (1, number),
            ..Package::default()
        };
        corpus.packages.push((id(hashed), package));
    }
    assert_eq!(asked(&corpus), ([0; 4], vec![1, 0, 1, 0, 1]));
}
