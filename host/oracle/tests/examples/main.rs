//! Document 01's table of examples and its mistaken readings, on the oracle and on the model.
mod accents;
mod cases;
mod questions;
mod references;

use cases::{Want::*, *};
use corpus::{Export, NULL, Package, Text, corpus, import_index, script_index};

/// The id of the empty name.
const K2: u64 = 0x9ae1_6a3b_2f90_404f;

#[test]
fn table_of_examples() {
    let empty = vec![0, 0, 0, 5, 1, 0, 0, 0, 0];
    let a = empty_a().bytes();
    assert_eq!((a.len(), a[4]), (91, 91));
    assert!(a[24..52].chunks(4).all(|offset| offset == [87, 0, 0, 0]));
    // length, version, count; id, name, exports, rows
    let section = [
        0, 0, 0, 0, 0, 0, 0, 7, 0, 0, 0, 1, b'A', 0, 0, 0, 0, 0, 0, 0, 0,
    ];
    let section = [&[0, 0, 0, 26, 1, 0, 0, 0, 1][..], &section].concat();
    run(&[
        case("no packages", smallest(), Report(empty)),
        case("version 2", with(smallest(), 4, &[2]), Refused(2, 0)),
        case(
            "a section of 21 bytes",
            corpus_of(&no_script(), &[&empty_a()]),
            Report(section),
        ),
        case(
            "header 92 in 91 bytes",
            corpus_of_blocks(&no_script(), &[with(a, 4, &[92])]),
            Refused(15, 2),
        ),
    ]);
}

fn row_of_x(flags: [u8; 3], class: &'static str, reference: &'static str) -> Want {
    let [kind, class_known, native_known] = flags;
    Rows(vec![(
        [1, 1, 0, kind, class_known, native_known],
        ["X", "X_GEN_VARIABLE", "", class, class, reference],
    )])
}

#[test]
fn paths() {
    let names: Vec<String> = (1..=66).map(|i| format!("n{i}")).collect();
    let names: Vec<&str> = names.iter().map(String::as_str).collect();
    let path = format!("n1.n2:{}", names[2..65].join("."));
    let deep = |n: usize| corpus_of(&nested(&names[..n]), &[&one(script_index(n as u64))]);
    run(&[
        case(
            "path of a, b, c, d",
            corpus_of(&nested(&["a", "b", "c", "d"]), &[&one(script_index(4))]),
            row_of_x([0, 1, 1], "a.b:c.d", "script:0x4000000000000004"),
        ),
        case(
            "65 objects",
            deep(65),
            row_of_x([0, 1, 1], path.leak(), "script:0x4000000000000041"),
        ),
        case(
            "66 objects",
            deep(66),
            row_of_x([1, 0, 0], "?", "script:0x4000000000000042"),
        ),
    ]);
}

/// The row of `supers`.
fn row_of_c(native_known: u8, native: &'static str) -> Want {
    Rows(vec![(
        [1, 1, 0, 4, 1, native_known],
        ["X", "X_GEN_VARIABLE", "", "/P.C", native, "export:C"],
    )])
}

#[test]
fn lookups() {
    let class = nested(&["Class"]);
    let last = script_index(1);
    run(&[
        case(
            "64 lookups",
            corpus_of(&class, &[&supers(64, last)]),
            row_of_c(1, "Class"),
        ),
        case(
            "65 lookups",
            corpus_of(&class, &[&supers(65, last)]),
            row_of_c(0, "?"),
        ),
        case(
            "a ring",
            corpus_of(&class, &[&supers(3, 1)]),
            row_of_c(0, "?"),
        ),
    ]);
}

#[test]
fn numbers_and_ids() {
    let mut numbered = one(NULL);
    numbered.exports[0].number = 1;
    let mut importing = one(import_index(0, 0));
    importing.imported = vec![(Text::of(""), 0)];
    importing.hashes = vec![100];
    let defining = supers(1, script_index(1));
    let both = [(7, importing.bytes()), (K2, defining.bytes())];
    run(&[
        case(
            "number 1",
            corpus_of(&no_script(), &[&numbered]),
            Rows(vec![(
                [1, 1, 1, 6, 0, 0],
                ["X_0", "X_GEN_VARIABLE_0", "", "?", "?", "null"],
            )]),
        ),
        case(
            "the id of the empty name is k2",
            corpus(&nested(&["Class"]), &both),
            Rows(vec![(
                [1, 1, 0, 2, 1, 1],
                [
                    "X",
                    "X_GEN_VARIABLE",
                    "",
                    "/P.C",
                    "Class",
                    "package:#0x0000000000000064",
                ],
            )]),
        ),
    ]);
}

#[test]
fn row_of_tone() {
    let package = Package {
        names: ["/P", "Tone_GEN_VARIABLE", "Booth_C"]
            .map(Text::of)
            .to_vec(),
        exports: vec![
            Export {
                outer: 1,
                ..export(1)
            },
            export(2),
        ],
        ..Package::default()
    };
    let corpus = corpus_of(&no_script(), &[&package]);
    run(&[
        case(
            "its first bytes",
            corpus.clone(),
            RowStarts([0, 0, 0, 0x40, 1, 1, 0, 6, 0, 0]),
        ),
        case(
            "its texts",
            corpus,
            Rows(vec![(
                [1, 1, 0, 6, 0, 0],
                ["Tone", "Tone_GEN_VARIABLE", "Booth_C", "?", "?", "null"],
            )]),
        ),
    ]);
}

/// Mistaken: a batch of 0 still reads a version.
#[test]
fn a_batch_of_0_reads_a_count_alone() {
    let no_entries = vec![0; 8];
    // version, count of 0 entries: read as a count of 0xC1640000 and so negative
    let versioned = [&[0; 4][..], &0xC164_0000u64.to_le_bytes(), &[0; 4]].concat();
    run(&[
        case("no version", corpus_of_blocks(&no_entries, &[]), Accepted),
        case(
            "a version",
            corpus_of_blocks(&versioned, &[]),
            Refused(8, 1),
        ),
    ]);
}

/// Mistaken: a path of `?` is unknown.
#[test]
fn a_path_of_a_question_mark_is_known() {
    let script = nested(&["Class"]);
    let marked = cases::script(&[
        ("Class", script_index(1), NULL),
        ("?", script_index(2), NULL),
    ]);
    let native = supers(1, script_index(2));
    let after = |lookups| corpus_of(&marked, &[&supers(lookups, script_index(2))]);
    run(&[
        case(
            "as the class",
            corpus_of(&marked, &[&one(script_index(2))]),
            row_of_x([0, 1, 1], "?", "script:0x4000000000000002"),
        ),
        case(
            "no such object as the class",
            corpus_of(&script, &[&one(script_index(2))]),
            row_of_x([1, 0, 0], "?", "script:0x4000000000000002"),
        ),
        case(
            "as the native class",
            corpus_of(&marked, &[&native]),
            row_of_c(1, "?"),
        ),
        case("after 64 lookups", after(64), row_of_c(1, "?")),
        case("after 65 lookups", after(65), row_of_c(0, "?")),
        case(
            "no such object as the native class",
            corpus_of(&script, &[&native]),
            row_of_c(0, "?"),
        ),
    ]);
}

/// Mistaken: a reference of hash 0 is matched.
#[test]
fn a_hash_of_0_is_not_matched() {
    let script = nested(&["Class"]);
    let mut hidden = supers(1, script_index(1));
    hidden.exports[1].hash = 0;
    let mut importing = one(import_index(0, 0));
    importing.imported = vec![(Text::of(""), 0)];
    importing.hashes = vec![0];
    let both = [(7, importing.bytes()), (K2, hidden.bytes())];
    run(&[
        case(
            "by export",
            corpus_of(&script, &[&hidden]),
            row_of_x([5, 0, 0], "?", "export:C"),
        ),
        case(
            "by import",
            corpus(&script, &both),
            row_of_x([3, 0, 0], "?", "package:#0x0000000000000000"),
        ),
    ]);
}

/// Mistaken: the suffix is tested on the rendered name.
#[test]
fn the_suffix_is_tested_on_the_base() {
    let mut spelled_out = one(NULL);
    spelled_out.names[1] = Text::of("X_GEN_VARIABLE_0");
    let mut rendered = one(NULL);
    rendered.names[1] = Text::of("X_GEN");
    rendered.exports[0].number = 1;
    let mut bare = one(NULL);
    bare.names[1] = Text::of("_GEN_VARIABLE");
    bare.exports[0].number = 3;
    run(&[
        case(
            "the number spelled out in the base",
            corpus_of(&no_script(), &[&spelled_out]),
            Rows(vec![]),
        ),
        case(
            "another base with a number",
            corpus_of(&no_script(), &[&rendered]),
            Rows(vec![]),
        ),
        case(
            "nothing but the suffix",
            corpus_of(&no_script(), &[&bare]),
            Rows(vec![(
                [1, 1, 1, 6, 0, 0],
                ["_2", "_GEN_VARIABLE_2", "", "?", "?", "null"],
            )]),
        ),
    ]);
}
