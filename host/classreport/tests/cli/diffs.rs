//! `diff`: what it finds, and what it does not.
use classreport::{Corpus, CorpusBuilder};
use corpus::Described;
use corpus::generate::{Random, generate, ladder};
use corpus::rearrange::rearrange;

use crate::rows::{add_row, odd_names};
use crate::tool::Place;

#[test]
fn reversed_and_rearranged_packages_make_no_difference() {
    let place = Place::with_example("diffs-order");
    place.done(&["pack", "--reverse", "booth", "-o", "back.corpus"]);
    assert_eq!(
        place.done(&["diff", "booth", "back.corpus"]),
        "no difference\n"
    );
    let mut random = Random(3);
    for seed in 0..3 {
        let corpus = generate(seed, 300_000);
        place.write("a", &corpus);
        place.write("b", &rearrange(&corpus, &mut random).corpus);
        assert_eq!(place.done(&["diff", "a", "b"]), "no difference\n");
        place.done(&["report", "b", "-o", "b.report"]);
        assert_eq!(place.done(&["diff", "b.report", "a"]), "no difference\n");
        assert_eq!(place.done(&["diff", "-q", "a", "b"]), "");
    }
}

/// The example with its packages changed.
fn changed(place: &Place, change: impl Fn(u64) -> bool) -> Vec<u8> {
    let bytes = place.output(&["pack", "booth"]).stdout;
    let corpus = Corpus::read(&bytes).expect("a corpus");
    let mut builder = CorpusBuilder::new(corpus.script()).expect("short");
    for package in corpus
        .packages()
        .iter()
        .filter(|package| change(package.id))
    {
        builder.add(package.id, package.bytes).expect("short");
    }
    builder.finish()
}

#[test]
fn what_changed_is_told() {
    let place = Place::with_example("diffs-changed");
    // Without the package of the sounds the speakers' native class is not known.
    place.write(
        "new.corpus",
        &changed(&place, |id| id != 0xa82b_bfaa_f2eb_0386),
    );
    let ran = place.run(&["diff", "booth", "new.corpus"]);
    assert_eq!((ran.status, &*ran.err), (1, ""));
    assert_eq!(
        ran.out,
        "package /Game/Sound/BP_Sound (id 0xa82bbfaaf2eb0386)\n\
         \x20 - the section is gone, with 0 rows\n\
         package /Game/Booth/BP_Booth (id 0xc84f876ae49cb3b4)\n\
         \x20 ~ Speaker_GEN_VARIABLE_0: native_known: yes -> no\n\
         \x20 ~ Speaker_GEN_VARIABLE_0: native: /Script/Engine.AudioComponent -> (unknown)\n\
         \x20 ~ Speaker_GEN_VARIABLE_1: native_known: yes -> no\n\
         \x20 ~ Speaker_GEN_VARIABLE_1: native: /Script/Engine.AudioComponent -> (unknown)\n\
         2 sections and 2 rows differ\n"
    );
    let back = place.run(&["diff", "new.corpus", "booth"]);
    assert!(back.status == 1 && back.out.contains("  + the section is new, with 0 rows\n"));
    let quiet = place.run(&["diff", "-q", "new.corpus", "booth"]);
    assert_eq!((quiet.status, &*quiet.out), (1, ""));
}

#[test]
fn rows_come_and_go() {
    let place = Place::new("diffs-rows");
    let mut build: Described = ladder::ring(1);
    place.write("old", &build.bytes());
    add_row(&mut build.packages[0].1, "New", corpus::NULL);
    place.write("new", &build.bytes());
    let ran = place.run(&["diff", "old", "new"]);
    assert_eq!(ran.status, 1);
    let expected = "  ~ exports: 3 -> 4\n  + New_GEN_VARIABLE: native (unknown)\n1 sections and 1 rows differ\n";
    assert!(ran.out.ends_with(expected), "{}", ran.out);
    assert!(
        place
            .run(&["diff", "new", "old"])
            .out
            .contains("  - New_GEN_VARIABLE: native (unknown)\n")
    );
    place.write("odd", &odd_names());
    assert_eq!(place.run(&["diff", "odd", "new"]).status, 1);
}

/// Packages of one id are matched one to one.
#[test]
fn packages_that_repeat() {
    let place = Place::new("diffs-repeat");
    let mut build = ladder::ring(1);
    let (id, mut package) = build.packages.pop().expect("a package");
    package.exports.clear();
    for (file, count) in [("two", 2), ("three", 3)] {
        build.packages = vec![(id, package.clone()); count];
        place.write(file, &build.bytes());
    }
    assert_eq!(place.done(&["diff", "three", "three"]), "no difference\n");
    let ran = place.run(&["diff", "three", "two"]);
    let expected = "  - the section is gone, with 0 rows\n1 sections and 0 rows differ\n";
    assert!(
        ran.status == 1 && ran.out.ends_with(expected),
        "{}",
        ran.out
    );
}
