//! `--lookups`, `--objects` and `--teaching`.
use corpus::generate::ladder;
use model::{Limits, class_report_within};

use crate::tool::Place;

fn model(corpus: &[u8], lookups: u32, objects: u32) -> Vec<u8> {
    let limits = Limits { lookups, objects };
    class_report_within(limits, corpus, u64::MAX, u64::MAX).expect("accepted")
}

#[test]
fn reports_are_the_models() {
    let place = Place::new("limits-reports");
    let corpus = ladder::told().bytes();
    place.write("told.corpus", &corpus);
    for (words, lookups, objects) in [
        (&[][..], 64, 65),
        (&["--teaching"], 8, 4),
        (&["--lookups", "8", "--objects=4"], 8, 4),
        (&["--lookups", "1", "--objects", "1"], 1, 1),
        (&["--lookups", "64", "--objects", "65"], 64, 65),
        (&["--teaching", "--objects", "5"], 8, 5),
    ] {
        let words = [&["report", "told.corpus"], words].concat();
        let given = place.output(&words).stdout;
        assert!(given == model(&corpus, lookups, objects), "{words:?}");
    }
}

/// What is shown of a build is shown within the limits, with the chain of each row as far as it may go.
#[test]
fn rows_and_chains_within_them() {
    let place = Place::new("limits-rows");
    place.write("chains.corpus", &ladder::chains().bytes());
    place.write("paths.corpus", &ladder::paths().bytes());
    let native = |words: &[&str]| {
        let shown = place.done(&[words, &["-f", "tsv", "--columns", "native_known"]].concat());
        shown.lines().filter(|line| *line == "1").count()
    };
    // The rows of 0 to 8 classes, two of each; of the longest chain there is one row.
    assert_eq!(native(&["show", "chains.corpus", "--teaching"]), 2 * 8 + 1);
    assert_eq!(native(&["show", "paths.corpus", "--teaching"]), 4);
    let why = |words: &[&str]| place.done(&[&["why"], words].concat());
    let long = why(&["chains.corpus", "Row", "--package", "/C8", "--teaching"]);
    assert!(
        long.contains("\n  8. class /C1.Own, in package 2, /C1\n"),
        "{long}"
    );
    let end = "\n  9. here the chain breaks off: the chain has more than 8 classes\n";
    assert!(long.contains(end), "{long}");
    let one = why(&["chains.corpus", "Row", "--package", "/C1", "--lookups=1"]);
    assert!(one.contains("the chain has more than 1 class\n"), "{one}");
    let deep = why(&["paths.corpus", "Row_GEN_VARIABLE_3", "--teaching"]);
    assert!(
        deep.contains("it lies more than 4 objects deep\n"),
        "{deep}"
    );
}

/// A report has had its limits.
#[test]
fn reports_keep_theirs() {
    let place = Place::with_example("limits-of-reports");
    place.done(&["report", "booth", "-o", "booth.report"]);
    let told = place.fails(2, &["show", "booth.report", "--teaching"]);
    let made = "booth.report: it is a report, and the limits are those of the call that made it";
    assert!(told.contains(made), "{told}");
    let told = place.fails(
        2,
        &["diff", "booth.report", "booth.report", "--lookups", "1"],
    );
    assert!(told.contains("both are reports"), "{told}");
    let ran = place.run(&["diff", "booth.report", "booth", "--lookups", "1"]);
    assert_eq!(ran.status, 1);
    assert!(
        ran.out.ends_with("1 sections and 2 rows differ\n"),
        "{}",
        ran.out
    );
    assert_eq!(
        place.done(&["diff", "booth.report", "booth", "--teaching"]),
        "no difference\n"
    );
}

/// The error names the range, and comes before anything is read.
#[test]
fn out_of_range_is_told() {
    let place = Place::with_example("limits-out-of-range");
    for (words, told) in [
        (
            &["show", "nowhere", "--lookups", "0"][..],
            "--lookups: '0' is no number from 1 to 64",
        ),
        (
            &["report", "booth", "--lookups", "65"],
            "--lookups: '65' is no number from 1 to 64",
        ),
        (
            &["check", "booth", "--objects=66"],
            "--objects: '66' is no number from 1 to 65",
        ),
        (
            &["why", "booth", "Tone", "--objects", "4294967297"],
            "--objects: '4294967297' is no number from 1 to 65",
        ),
        (
            &["summary", "booth", "--lookups", "few"],
            "--lookups: 'few' is no number from 1 to 64",
        ),
        (
            &["show", "booth", "--teaching=8"],
            "--teaching takes no value",
        ),
        (
            &["pack", "booth", "--teaching"],
            "there is no option '--teaching'",
        ),
    ] {
        let said = place.fails(2, words);
        assert_eq!(
            said,
            format!("classreport: {told}\nTry 'classreport --help'.\n")
        );
    }
}
