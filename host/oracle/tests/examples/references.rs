//! References that are bad or that no class answers, and a row of kind 2, on the oracle and on the model.
use crate::cases::{Want::*, *};
use corpus::{Export, Package, Text, import_index};

fn of(package: &Package) -> Vec<u8> {
    corpus_of(&no_script(), &[package])
}

fn row(class_kind: u8, reference: &'static str) -> Want {
    Rows(vec![(
        [1, 1, 0, class_kind, 0, 0],
        ["X", "X_GEN_VARIABLE", "", "?", "?", reference],
    )])
}

/// One imported name, `/Q_1`, and two hashes.
fn importing(class: u64) -> Vec<u8> {
    of(&Package {
        hashes: vec![1, 2],
        imported: vec![(Text::of("/Q"), 2)],
        ..one(class)
    })
}

#[test]
fn imports() {
    run(&[
        case(
            "a key that no class has",
            importing(import_index(0, 1)),
            row(3, "package:/Q_1#0x0000000000000002"),
        ),
        case(
            "no such name",
            importing(import_index(0x3fff_ffff, 1)),
            row(
                7,
                "package import 1073741823/1 outside 1 packages / 2 hashes",
            ),
        ),
        case(
            "no such hash",
            importing(import_index(0, u32::MAX)),
            row(
                7,
                "package import 0/4294967295 outside 1 packages / 2 hashes",
            ),
        ),
    ]);
}

#[test]
fn exports() {
    let most = (1 << 62) - 1;
    run(&[
        case(
            "itself, which is no class",
            of(&one(0)),
            row(5, "export:X_GEN_VARIABLE"),
        ),
        case(
            "just outside",
            of(&one(1)),
            row(7, "local export 1 outside 1 exports"),
        ),
        case(
            "a whole index",
            of(&one(1 << 32)),
            row(7, "local export 4294967296 outside 1 exports"),
        ),
        case(
            "the last index",
            of(&one(most)),
            row(7, "local export 4611686018427387903 outside 1 exports"),
        ),
        case("null with low bits", of(&one(3 << 62)), row(6, "null")),
    ]);
}

#[test]
fn a_candidate_of_kind_2() {
    let child = Export {
        number: 5,
        outer: 1,
        ..export(1)
    };
    let outer = Export {
        number: 3,
        ..export(2)
    };
    let package = Package {
        names: vec![Text::of("/P"), Text::of("Sub"), Text::wide("Default__é🎯")],
        exports: vec![child, outer],
        ..Package::default()
    };
    let texts = ["Sub_4", "Sub_4", "Default__é🎯_2", "?", "?", "null"];
    run(&[case(
        "below a default object",
        of(&package),
        Rows(vec![([1, 2, 0, 6, 0, 0], texts)]),
    )]);
}
