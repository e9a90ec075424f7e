//! A program in C that includes the header, links the archive and runs.
use std::fs;
use std::path::{Path, PathBuf};
use std::process::{Command, Output};

use classreport::{Description, Export, ImportedName, QUESTIONS};
use corpus::generate::{dense, generate, hashed};

const CRATE: &str = env!("CARGO_MANIFEST_DIR");
const PLACE: &str = env!("CARGO_TARGET_TMPDIR");

/// Compiles the program, or says why that is left out.
fn compiled() -> Option<PathBuf> {
    let program = Path::new(PLACE).join("call-in-c");
    let built = Command::new("cc")
        .args([
            "-std=c99",
            "-pedantic",
            "-Wall",
            "-Wextra",
            "-Werror",
            "-O1",
        ])
        .arg(format!("-I{CRATE}/../../include"))
        .arg(format!("{CRATE}/tests/c/call.c"))
        .arg(format!("{CRATE}/../../target/staticlib/libcapi.a"))
        .arg("-o")
        .arg(&program)
        .output();
    let Ok(built) = built else {
        println!("no C compiler (cc) is at hand: the C header is not tried");
        return None;
    };
    let said = String::from_utf8_lossy(&built.stderr);
    assert!(built.status.success() && said.is_empty(), "{said}");
    Some(program)
}

/// Runs it with these words behind a corpus in a file, where one is given.
fn run(program: &Path, corpus: Option<&[u8]>, words: &[&str]) -> Output {
    let mut command = Command::new(program);
    if let Some(corpus) = corpus {
        let file = program.with_extension("corpus");
        fs::write(&file, corpus).expect("a file for the corpus");
        command.arg(file).args(words);
    }
    command.output().expect("the program in C")
}

/// Whether it wrote this, or said why there is nothing.
fn answered(given: &Output, answer: &answer::Answer) {
    match answer {
        Ok(written) => assert!(given.status.success() && given.stdout == *written),
        Err((question, block)) => {
            assert_eq!(given.status.code(), Some(1));
            let start = format!("refused {question} in block {block}: ");
            let said = String::from_utf8_lossy(&given.stderr).into_owned();
            assert!(said.starts_with(&start), "{said}");
            assert!(given.stdout.is_empty());
        }
    }
}

#[test]
fn a_host_in_c() {
    let Some(program) = compiled() else { return };
    let own = run(&program, None, &[]);
    assert_eq!(String::from_utf8_lossy(&own.stderr), "");
    assert!(own.status.success());
    let told = |q: &classreport::Question| format!("{} {}\n", q.number, q.failed);
    let all: String = QUESTIONS.iter().map(told).collect();
    assert_eq!(String::from_utf8_lossy(&own.stdout), all);

    let corpora = [
        hashed(1).bytes(),
        generate(1, 20_000),
        dense(1),
        dense(2),
        dense(3),
        Vec::new(),
    ];
    for corpus in corpora {
        let report = model::class_report(&corpus, u64::MAX, u64::MAX);
        answered(&run(&program, Some(&corpus), &[]), &report);
        let found = model::class_verify(&corpus, u64::MAX);
        answered(&run(&program, Some(&corpus), &["verify"]), &found);
    }
    let mut tone = Description {
        texts: ["/Game/Tone", "Töne ♪"].map(str::to_owned).to_vec(),
        exports: vec![Export::default()],
        hashes: vec![1, 2],
        imported: vec![ImportedName::default()],
        ..Description::default()
    };
    let written = |tone: &Description| {
        let bytes = tone.bytes().expect("no 4 GB");
        run(&program, Some(&bytes), &["header"])
    };
    let header = classreport::header(&tone).expect("accepted");
    answered(&written(&tone), &Ok(header));
    tone.name.text = 2;
    answered(&written(&tone), &Err((27, 0)));
}
