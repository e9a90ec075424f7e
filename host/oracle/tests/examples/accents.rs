//! Imported names beyond ASCII: lowered for the id one character to one, and shown as they are spelt.
use crate::cases::{Want::*, *};
use corpus::rows::sections;
use corpus::{Text, corpus, import_index, script_index};

/// CityHash64 of a text in UTF-16LE as it stands.
fn hash(text: &str) -> u64 {
    let units: Vec<[u8; 2]> = text.encode_utf16().map(u16::to_le_bytes).collect();
    cityhasher::hash(units.as_flattened())
}

/// A row of the class of a package that is imported so, where there is a package whose id is the hash of a text; the
/// sections are the same in the other order.
fn import(imported: (Text, u32), lowered: &str, want: Want) {
    let mut importing = one(import_index(0, 0));
    importing.imported = vec![imported];
    importing.hashes = vec![100];
    let packages = [
        (7, importing.bytes()),
        (hash(lowered), supers(1, script_index(1)).bytes()),
    ];
    let [one, other] = &packages;
    let script = nested(&["Class"]);
    let orders = [[one, other], [other, one]].map(|two| corpus(&script, &two.map(Clone::clone)));
    for call in [oracle::report::class_report, model::class_report] {
        let [forward, backward] = orders.each_ref().map(|corpus| {
            let report = call(corpus, u64::MAX, u64::MAX).expect("accepted");
            sections(&report)
                .into_iter()
                .map(<[u8]>::to_vec)
                .collect::<Vec<_>>()
        });
        assert!(forward.iter().eq(backward.iter().rev()), "{lowered}");
    }
    let [forward, _] = orders;
    run(&[case("an import", forward, want)]);
}

fn row(found: bool, reference: &'static str) -> Want {
    let (kind, known, class, native) = if found {
        (2, 1, "/P.C", "Class")
    } else {
        (3, 0, "?", "?")
    };
    Rows(vec![(
        [1, 1, 0, kind, known, known],
        ["X", "X_GEN_VARIABLE", "", class, native, reference],
    )])
}

#[test]
fn lowered_one_to_one() {
    let found = [
        ("/É", "/é", "package:/É#0x0000000000000064"),
        ("/é", "/é", "package:/é#0x0000000000000064"),
        ("/Œ", "/œ", "package:/Œ#0x0000000000000064"),
        ("/Ÿ", "/ÿ", "package:/Ÿ#0x0000000000000064"),
        ("/ΑΣ", "/ασ", "package:/ΑΣ#0x0000000000000064"),
        ("/ας", "/ας", "package:/ας#0x0000000000000064"),
        ("/Д", "/д", "package:/Д#0x0000000000000064"),
        (
            "/\u{130}",
            "/\u{130}",
            "package:/\u{130}#0x0000000000000064",
        ),
        (
            "/\u{1c5}",
            "/\u{1c6}",
            "package:/\u{1c5}#0x0000000000000064",
        ),
        ("/\u{1e9e}", "/ß", "package:/\u{1e9e}#0x0000000000000064"),
        ("/\u{212a}", "/k", "package:/\u{212a}#0x0000000000000064"),
        ("/\u{212b}", "/å", "package:/\u{212b}#0x0000000000000064"),
        ("/×÷", "/×÷", "package:/×÷#0x0000000000000064"),
        ("/𐐀", "/𐐨", "package:/𐐀#0x0000000000000064"),
        ("/𞤀", "/𞤢", "package:/𞤀#0x0000000000000064"),
        ("/🎯", "/🎯", "package:/🎯#0x0000000000000064"),
    ];
    for (imported, lowered, reference) in found {
        for text in [Text::of(imported), Text::wide(imported)] {
            import((text, 0), lowered, row(true, reference));
        }
    }
}

/// U+0130 is not lowered, no sigma becomes a final one, what a small letter is decomposed to is another text.
#[test]
fn lowered_no_further() {
    let missed = [
        ("/\u{130}", "/i", "package:/\u{130}#0x0000000000000064"),
        (
            "/\u{130}",
            "/i\u{307}",
            "package:/\u{130}#0x0000000000000064",
        ),
        ("/ΑΣ", "/ας", "package:/ΑΣ#0x0000000000000064"),
        ("/ας", "/ασ", "package:/ας#0x0000000000000064"),
        ("/É", "/e\u{301}", "package:/É#0x0000000000000064"),
        ("/ß", "/ss", "package:/ß#0x0000000000000064"),
        ("/\u{17f}", "/s", "package:/\u{17f}#0x0000000000000064"),
    ];
    for (imported, lowered, reference) in missed {
        import((Text::wide(imported), 0), lowered, row(false, reference));
    }
}

#[test]
fn instance_numbers() {
    for imported in [(Text::of("/Œ"), 12), (Text::of("/Œ_11"), 0)] {
        let want = row(true, "package:/Œ_11#0x0000000000000064");
        import(imported, "/œ_11", want);
    }
}
