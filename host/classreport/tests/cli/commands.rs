//! Every command on builds, corpora and reports; docs/USING.md has the rest of what they write.
use corpus::corpus;

use crate::rows::odd_names;
use crate::tool::Place;

#[test]
fn report_is_the_models() {
    let place = Place::with_example("commands-report");
    place.done(&["pack", "booth", "-o", "booth.corpus"]);
    let corpus = place.read("booth.corpus");
    let model = model::class_report(&corpus, u64::MAX, u64::MAX).expect("accepted");
    place.done(&["report", "booth", "-o", "a"]);
    assert_eq!(place.read("a"), model);
    assert_eq!(place.output(&["report", "booth.corpus"]).stdout, model);
    assert_eq!(
        place.output(&["report", "booth.corpus", "-o", "-"]).stdout,
        model
    );
    assert_eq!(place.fed(&["report", "-"], &corpus).stdout, model);
    assert_eq!(place.output(&["report", "--example"]).stdout, model);
}

/// A build, its corpus, its report and the same on standard input are shown alike.
#[test]
fn any_input_does() {
    let place = Place::with_example("commands-inputs");
    place.done(&["pack", "booth", "-o", "booth.corpus"]);
    place.done(&["report", "booth", "-o", "booth.report"]);
    for words in [
        &["show"][..],
        &["show", "-f", "jsonl"],
        &["summary"],
        &["summary", "--by-package", "-f", "tsv"],
    ] {
        let with = |input: &str| place.done(&[words, &[input]].concat());
        let built = with("booth");
        assert_eq!(with("booth.corpus"), built);
        assert_eq!(with("booth.report"), built);
        assert_eq!(with("--example"), built);
        for file in ["booth.corpus", "booth.report"] {
            let fed = place.fed(&[words, &["-"]].concat(), &place.read(file));
            assert_eq!(String::from_utf8_lossy(&fed.stdout), built);
        }
    }
    let why = place.done(&["why", "booth.corpus", "Tone"]);
    assert_eq!(place.done(&["why", "--example", "Tone"]), why);
    assert!(
        place
            .done(&["why", "booth.report", "Tone"])
            .ends_with("give the corpus or the build to see them.\n")
    );
}

#[test]
fn pack_and_unpack_are_each_others_way_back() {
    let place = Place::with_example("commands-pack");
    place.done(&["pack", "booth", "-o", "a"]);
    place.done(&["unpack", "a", "-o", "again"]);
    assert_eq!(place.names("again/packages"), place.names("booth/packages"));
    // Ids that repeat and fall have to be listed.
    let packages = [
        (9, b"first".to_vec()),
        (9, Vec::new()),
        (1, b"last".to_vec()),
    ];
    let bytes = corpus(b"script", &packages);
    place.write("listed.corpus", &bytes);
    place.done(&["unpack", "listed.corpus", "-o", "listed/"]);
    let list = String::from_utf8(place.read("listed/packages.tsv")).expect("UTF-8");
    assert_eq!(
        list.lines().next(),
        Some("0000000000000009\tpackages/000001-0000000000000009.bin")
    );
    place.done(&["pack", "listed", "-o", "b"]);
    assert_eq!(place.read("b"), bytes);
    place.done(&["pack", "--reverse", "listed", "-o", "c"]);
    let turned: Vec<_> = packages.into_iter().rev().collect();
    assert_eq!(place.read("c"), corpus(b"script", &turned));
}

#[test]
fn an_empty_corpus() {
    let place = Place::new("commands-empty");
    place.write("empty.corpus", &corpus(&[0; 8], &[]));
    assert_eq!(
        place.output(&["report", "empty.corpus"]).stdout,
        [0, 0, 0, 5, 1, 0, 0, 0, 0]
    );
    assert_eq!(
        place.done(&["check", "empty.corpus"]),
        "empty.corpus: accepted: 0 packages, 0 rows\n"
    );
    assert_eq!(
        place.done(&["show", "empty.corpus"]),
        "package  instance  class  native\n"
    );
    assert_eq!(place.done(&["show", "-f", "jsonl", "empty.corpus"]), "");
    assert!(
        place
            .done(&["summary", "empty.corpus"])
            .ends_with("unknown in 0\n")
    );
    place.done(&["unpack", "empty.corpus", "-o", "build"]);
    assert_eq!(
        place.done(&["check", "build"]),
        "build: accepted: 0 packages, 0 rows\n"
    );
}

#[test]
fn rows_are_chosen() {
    let place = Place::with_example("commands-filters");
    let instances = |words: &[&str]| {
        let fixed = ["show", "booth", "-f", "tsv", "--columns=instance"];
        let out = place.done(&[&fixed[..], words].concat());
        out.lines().skip(1).map(str::to_owned).collect::<Vec<_>>()
    };
    assert_eq!(instances(&[]).len(), 6);
    assert_eq!(instances(&["--unknown"]), ["Bulb", "Click"]);
    assert_eq!(
        instances(&["--native", "Audio"]),
        ["Speaker_0", "Speaker_1"]
    );
    assert_eq!(instances(&["--package", "*_Lamp"]), ["Bulb", "Click"]);
    assert_eq!(
        instances(&["--package", "0x8ff403e4ce73a2b8"]),
        ["Bulb", "Click"]
    );
    assert_eq!(instances(&["--package", "BP_Lamp"]), [""; 0]);
    assert_eq!(
        instances(&["--package", "*Booth", "--native", "Tone"]),
        ["Tone"]
    );
    // An unknown native class is not one that is called `?`.
    place.write("odd.corpus", &odd_names());
    let known = place.done(&[
        "show",
        "--native",
        "?",
        "-f",
        "csv",
        "--columns",
        "instance",
        "odd.corpus",
    ]);
    assert_eq!(known, "instance\r\n?\r\n");
    assert_eq!(
        place.done(&["summary", "odd.corpus", "--native", "?", "-f", "csv"]),
        "native,native_known,rows\r\n?,1,1\r\n"
    );
}

#[test]
fn check_goes_through_all() {
    let place = Place::with_example("commands-check");
    place.write("bad.corpus", b"");
    let ran = place.run(&["check", "booth", "bad.corpus", "booth"]);
    assert_eq!(ran.status, 1);
    assert_eq!(
        ran.out,
        "booth: accepted: 6 packages, 6 rows\n\
         bad.corpus: refused 1 (block 0, the corpus): the corpus's lengths do not fit its bytes\n\
         booth: accepted: 6 packages, 6 rows\n"
    );
    let ran = place.run(&["check", "-q", "booth", "bad.corpus"]);
    assert_eq!((ran.status, &*ran.out, &*ran.err), (1, "", ""));
    let ran = place.run(&["check", "nothing", "booth"]);
    assert_eq!((ran.status, ran.out.lines().count()), (3, 1));
    assert_eq!(ran.err, "classreport: nothing: No such file or directory\n");
}

#[test]
fn help_and_version() {
    let place = Place::new("commands-help");
    let overview = place.done(&["--help"]);
    assert_eq!(place.done(&["help"]), overview);
    for name in [
        "show", "check", "summary", "why", "verify", "diff", "explain", "header", "describe",
        "report", "pack", "unpack", "example",
    ] {
        assert!(overview.contains(&format!("\n  {name} ")), "{name}");
        let help = place.done(&[name, "--help"]);
        assert!(help.contains("\nExamples:\n  classreport "), "{name}");
        assert!(!help.contains("\n-"), "{name}: options stand in line");
        assert_eq!(place.done(&["help", name]), help);
        assert_eq!(place.done(&[name, "-h"]), help);
    }
    assert!(place.done(&["--version"]).starts_with("classreport "));
    assert_eq!(place.done(&["explain"]).lines().count(), 28);
    let packed = place.done(&["explain", "0x8000001100000008"]);
    assert!(
        packed.starts_with("Refused 17 (block 8, package 7): an offset is below its predecessor")
    );
}
