//! The command writes list and sum, or nothing: bad arguments are refused before the oracle is asked, and a failure leaves
//! what was there.
use std::ffi::OsString;
use std::fs;
use std::path::{Path, PathBuf};
use std::process::Command;

use record::command::{Failure, run};
use record::files::replace;

/// An empty folder of this name below cargo's.
fn folder(name: &str) -> PathBuf {
    let folder = PathBuf::from(env!("CARGO_TARGET_TMPDIR")).join(name);
    let _ = fs::remove_dir_all(&folder);
    fs::create_dir_all(&folder).expect("a folder");
    folder
}

/// What a folder holds, by name; a folder in it has no bytes.
fn files(folder: &Path) -> Vec<(String, Vec<u8>)> {
    let entries = fs::read_dir(folder).expect("a folder");
    let mut files: Vec<_> = entries
        .map(|entry| {
            let entry = entry.expect("an entry");
            let name = entry.file_name().into_string().expect("a name in UTF-8");
            (name, fs::read(entry.path()).unwrap_or_default())
        })
        .collect();
    files.sort();
    files
}

fn held(files: &[(&str, &[u8])]) -> Vec<(String, Vec<u8>)> {
    (files.iter())
        .map(|(name, bytes)| ((*name).to_owned(), bytes.to_vec()))
        .collect()
}

#[test]
fn the_command_writes_list_and_sum() {
    let folder = folder("writes");
    let mut command = Command::new(env!("CARGO_BIN_EXE_record"));
    let status = command.arg(folder.join("some.bin")).status();
    assert!(status.expect("the command runs").success());
    let list = record::list();
    let sum = corpus::list::sum(&list);
    let both: [(&str, &[u8]); 2] = [("some.bin", &list), ("some.sum", sum.as_bytes())];
    assert!(files(&folder) == held(&both), "list and sum, and no more");
}

#[test]
fn a_bad_argument_has_status_2() {
    let folder = folder("status");
    let mut command = Command::new(env!("CARGO_BIN_EXE_record"));
    let output = command.arg(folder.join("list.sum")).output();
    let output = output.expect("the command runs");
    assert_eq!(output.status.code(), Some(2));
    assert!(output.stdout.is_empty());
    assert!(output.stderr.starts_with(b"record: "));
    assert_eq!(files(&folder), []);
}

/// None of these gets as far as making the list.
#[test]
fn bad_arguments_are_refused_first() {
    let folder = folder("refuses");
    fs::create_dir(folder.join("folder.bin")).expect("a folder");
    fs::create_dir(folder.join("taken.sum")).expect("a folder");
    let before = files(&folder);
    let path = |name: &str| OsString::from(folder.join(name));
    for bad in [
        vec![],
        vec![path("one.bin"), path("two.bin")],
        vec![OsString::new()],
        vec![path("")],
        vec![path("no/list.bin")],
        vec![path("list")],
        vec![path("list.sum")],
        vec![path("folder.bin")],
        vec![path("taken.bin")],
    ] {
        let asked = || panic!("{bad:?}: the list is made before the arguments are checked");
        let refused = run(&bad, asked);
        assert!(matches!(refused, Err(Failure::Usage(_))), "{bad:?}");
        assert_eq!(files(&folder), before, "{bad:?}");
    }
}

#[test]
fn both_are_replaced() {
    let folder = folder("replaces");
    fs::write(folder.join("one"), b"old").expect("a file");
    let (one, two) = (folder.join("one"), folder.join("two"));
    replace(&[(&one, b"new"), (&two, b"more")]).expect("room for both");
    assert_eq!(files(&folder), held(&[("one", b"new"), ("two", b"more")]));
}

/// The second place is a folder, which no file can replace; before that the first was replaced or made.
#[test]
fn a_failure_leaves_what_was_there() {
    for first in [&[("one", &b"old"[..])][..], &[]] {
        let folder = folder("fails");
        for (name, bytes) in first {
            fs::write(folder.join(name), bytes).expect("a file");
        }
        fs::create_dir(folder.join("two")).expect("a folder");
        let before = files(&folder);
        let (one, two) = (folder.join("one"), folder.join("two"));
        let failed = replace(&[(&one, b"new"), (&two, b"more")]);
        assert!(failed.is_err());
        assert_eq!(files(&folder), before);
    }
}
