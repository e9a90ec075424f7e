//! Bad arguments.
use std::ffi::OsStr;
use std::os::unix::ffi::OsStrExt;

use crate::tool::{Place, Ran};

#[test]
fn bad_arguments_are_told() {
    let place = Place::with_example("usage");
    for (words, told) in [
        (&[][..], "which command? `classreport --help` lists them"),
        (&["shw"], "there is no command 'shw'"),
        (&["help", "shw"], "there is no command 'shw'"),
        (&["--nope"], "there is no option '--nope'"),
        (&["show"], "usage: classreport show INPUT"),
        (&["show", "a", "b"], "usage: classreport show INPUT"),
        (&["show", "--example", "b"], "usage: classreport show INPUT"),
        (&["why", "booth"], "usage: classreport why INPUT EXPORT"),
        (&["diff", "booth"], "usage: classreport diff OLD NEW"),
        (&["show", "booth", "--nope"], "there is no option '--nope'"),
        (&["show", "booth", "-x"], "there is no option '-x'"),
        (&["show", "booth", "-qx"], "there is no option '-x'"),
        (
            &["show", "booth", "-f"],
            "--format needs a value: --format FORMAT",
        ),
        (
            &["show", "booth", "-f", "xml"],
            "--format: 'xml' is none of table, csv, tsv, jsonl, html",
        ),
        (
            &["summary", "booth", "-f", "html"],
            "--format: 'html' is none of table, csv, tsv, jsonl",
        ),
        (
            &["verify", "booth", "-f", "csv"],
            "--format: 'csv' is none of table, json",
        ),
        (&["verify"], "usage: classreport verify BUILD|CORPUS"),
        (
            &["show", "booth", "--unknown=1"],
            "--unknown takes no value",
        ),
        (
            &["show", "booth", "--color", "red"],
            "--color: 'red' is none of auto, always, never",
        ),
        (
            &["show", "booth", "--errors", "xml"],
            "--errors: 'xml' is none of text, json",
        ),
        (
            &["show", "booth", "--width", "0"],
            "--width: '0' is no number of columns",
        ),
        (
            &["show", "booth", "--as", "x"],
            "--as: 'x' is none of either, corpus, report",
        ),
        (
            &["unpack", "booth"],
            "name the folder to make with -o BUILD",
        ),
        (
            &["explain", "30"],
            "'30' is neither a question (1 to 22, 24 to 29) nor a number that the call returned",
        ),
        (
            &["explain", "23"],
            "'23' is neither a question (1 to 22, 24 to 29) nor a number that the call returned",
        ),
        (
            &["explain", "x"],
            "'x' is neither a question (1 to 22, 24 to 29) nor a number that the call returned",
        ),
        (
            &["why", "booth", "Nobody"],
            "booth: no row has the export or instance 'Nobody'; `show --columns package,export` lists them",
        ),
    ] {
        let said = place.fails(2, words);
        assert_eq!(
            said,
            format!("classreport: {told}\nTry 'classreport --help'.\n"),
            "{words:?}"
        );
    }
    let said = place.fails(2, &["show", "booth", "--columns", "clas"]);
    assert!(said.starts_with("classreport: --columns: 'clas' is none of id, package, instance,"));
    let said = place.fails(2, &["--errors", "json", "shw"]);
    assert_eq!(
        said,
        "{\"error\":\"usage\",\"status\":2,\"message\":\"there is no command 'shw'\"}\n"
    );
}

/// Options before and behind operands, with and without `=`, several letters in a word, `--`, the last of two.
#[test]
fn options_as_everywhere() {
    let place = Place::with_example("usage-options");
    let csv = place.done(&["show", "-f", "csv", "booth"]);
    for words in [
        &["show", "booth", "-fcsv"][..],
        &["show", "-qf", "csv", "booth"],
        &["show", "--format=csv", "booth"],
        &["show", "booth", "--format", "csv"],
        &["--color", "never", "show", "booth", "-f=csv"],
        &["show", "-f", "tsv", "-f", "csv", "--", "booth"],
        &["-q", "show", "-f", "csv", "booth", "-o", "-"],
    ] {
        assert_eq!(place.done(words), csv, "{words:?}");
    }
}

/// A file name that is not UTF-8, and one that starts with a dash.
#[test]
fn odd_file_names() {
    let place = Place::new("usage-names");
    let odd = OsStr::from_bytes(b"n\xffme");
    let words = [
        OsStr::new("show"),
        OsStr::new("--example"),
        OsStr::new("-o"),
        odd,
    ];
    let ran = Ran::of(&place.command(&words).output().expect("it runs"));
    assert_eq!((ran.status, &*ran.err), (0, ""));
    place.done(&["report", "--example", "-o", "-dash"]);
    assert!(place.done(&["show", "--", "-dash"]).contains("Speaker_0"));
    let ran = place.run(&["show", "no\nfile"]);
    assert_eq!(
        (ran.status, &*ran.err),
        (3, "classreport: no\\nfile: No such file or directory\n")
    );
}
