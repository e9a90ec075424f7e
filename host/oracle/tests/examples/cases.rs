//! A table of cases, each run on the oracle and on the model, and the small corpora that they are made of.
use answer::Answer;
use corpus::{Export, NULL, Package, ScriptEntry, Text, corpus, script_block, script_index};

/// What a call answers.
pub enum Want {
    Refused(u8, u32),
    /// the whole report
    Report(Vec<u8>),
    /// the first section's rows, each as its first bytes (length apart) and its texts
    Rows(Vec<([u8; 6], [&'static str; 6])>),
    /// how the first row starts
    RowStarts([u8; 10]),
    /// any report
    Accepted,
}

pub struct Case {
    pub what: &'static str,
    pub corpus: Vec<u8>,
    pub work: u64,
    pub buffer: u64,
    pub want: Want,
}

/// A case with buffers that are long enough.
pub fn case(what: &'static str, corpus: Vec<u8>, want: Want) -> Case {
    Case {
        what,
        corpus,
        work: u64::MAX,
        buffer: u64::MAX,
        want,
    }
}

pub fn run(cases: &[Case]) {
    for case in cases {
        let judges = [
            ("oracle", oracle::report::class_report as fn(_, _, _) -> _),
            ("model", model::class_report),
        ];
        for (judge, call) in judges {
            let answer = call(&case.corpus, case.work, case.buffer);
            check(&format!("{judge}: {}", case.what), &answer, &case.want);
        }
    }
}

fn check(what: &str, answer: &Answer, want: &Want) {
    match (answer, want) {
        (Err(refused), Want::Refused(number, block)) => {
            assert_eq!(*refused, (*number, *block), "{what}");
        }
        (Ok(report), Want::Report(bytes)) => assert_eq!(report, bytes, "{what}"),
        (Ok(report), Want::Rows(want)) => {
            let got: Vec<_> = first_rows(report)
                .iter()
                .map(|row| taken_apart(row))
                .collect();
            let want: Vec<_> = want
                .iter()
                .map(|(bytes, texts)| (*bytes, texts.map(str::to_owned)))
                .collect();
            assert_eq!(got, want, "{what}");
        }
        (Ok(report), Want::RowStarts(bytes)) => {
            assert_eq!(first_rows(report)[0][..10], *bytes, "{what}");
        }
        (Ok(_), Want::Accepted) => (),
        _ => panic!("{what}: the answer is {:#x}", answer::number(answer)),
    }
}

fn be32(bytes: &[u8], at: usize) -> usize {
    u32::from_be_bytes(bytes[at..at + 4].try_into().unwrap()) as usize
}

/// The first section's rows.
fn first_rows(report: &[u8]) -> Vec<&[u8]> {
    let mut at = 9 + 8;
    at += 4 + be32(report, at) + 4;
    let count = be32(report, at);
    at += 4;
    let mut rows = Vec::new();
    for _ in 0..count {
        let end = at + 4 + be32(report, at);
        rows.push(&report[at..end]);
        at = end;
    }
    rows
}

fn taken_apart(row: &[u8]) -> ([u8; 6], [String; 6]) {
    let mut at = 10;
    let texts = std::array::from_fn(|_| {
        let end = at + 4 + be32(row, at);
        let text = String::from_utf8(row[at + 4..end].to_vec()).unwrap();
        at = end;
        text
    });
    assert_eq!(at, row.len());
    (row[4..10].try_into().unwrap(), texts)
}

/// `00 00 00 11 01 00 00 00 08` and 12 zero bytes: an empty script block and no package.
pub fn smallest() -> Vec<u8> {
    let mut bytes = vec![0; 21];
    bytes[3] = 0x11;
    bytes[4] = 1;
    bytes[8] = 8;
    bytes
}

/// The bytes with some of them replaced.
pub fn with(mut bytes: Vec<u8>, at: usize, new: &[u8]) -> Vec<u8> {
    bytes[at..at + new.len()].copy_from_slice(new);
    bytes
}

/// A script block: names, global indices and outers.
pub fn script(objects: &[(&str, u64, u64)]) -> Vec<u8> {
    let names: Vec<Text> = objects.iter().map(|(name, _, _)| Text::of(name)).collect();
    let entry = |(name, (_, global, outer)): (u32, &(&str, u64, u64))| ScriptEntry {
        name,
        number: 0,
        global: *global,
        outer: *outer,
    };
    let entries: Vec<ScriptEntry> = (0..).zip(objects).map(entry).collect();
    script_block(&names, &entries)
}

/// Objects 1 to n, each the outer of the next.
pub fn nested(names: &[&str]) -> Vec<u8> {
    let mut objects = Vec::new();
    let mut outer = NULL;
    for (i, name) in (1..).zip(names) {
        objects.push((*name, script_index(i), outer));
        outer = script_index(i);
    }
    script(&objects)
}

pub fn no_script() -> Vec<u8> {
    script_block(&[], &[])
}

/// A package named `A` with nothing in it.
pub fn empty_a() -> Package {
    Package {
        names: vec![Text::of("A")],
        ..Package::default()
    }
}

/// An export with no outer, class or super.
pub fn export(name: u32) -> Export {
    Export {
        name,
        number: 0,
        outer: NULL,
        class: NULL,
        super_index: NULL,
        hash: 0,
    }
}

/// A package `/P` with one candidate, `X_GEN_VARIABLE`, of this class.
pub fn one(class: u64) -> Package {
    Package {
        names: vec![Text::of("/P"), Text::of("X_GEN_VARIABLE")],
        exports: vec![Export { class, ..export(1) }],
        ..Package::default()
    }
}

/// `one` of class `C`, the first of n classes, each with the next as its super and the last with this one.
pub fn supers(n: u64, last: u64) -> Package {
    let mut package = one(1);
    package.names.push(Text::of("C"));
    for i in 1..=n {
        package.exports.push(Export {
            number: i as u32 - 1,
            class: script_index(1),
            super_index: if i == n { last } else { i + 1 },
            hash: 99 + i,
            ..export(2)
        });
    }
    package
}

/// A corpus of these packages, whose ids are 7, 8 and so on.
pub fn corpus_of(script: &[u8], packages: &[&Package]) -> Vec<u8> {
    let blocks: Vec<Vec<u8>> = packages.iter().map(|p| p.bytes()).collect();
    corpus_of_blocks(script, &blocks)
}

pub fn corpus_of_blocks(script: &[u8], blocks: &[Vec<u8>]) -> Vec<u8> {
    corpus(
        script,
        &(7..).zip(blocks.iter().cloned()).collect::<Vec<_>>(),
    )
}
