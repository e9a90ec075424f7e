//! `verify`: counts, flags, what they are about, and the exit status.
use corpus::generate::{hashed, ladder};
use corpus::{Described, NULL, Package, Text};

use crate::tool::{Place, Ran};

/// A corpus in a file, checked with these words.
fn verified(place: &Place, corpus: &Described, words: &[&str]) -> Ran {
    place.write("a.corpus", &corpus.bytes());
    place.run(&[&["verify", "a.corpus"], words].concat())
}

/// Script objects, one of them in a ring, and packages, one with another id.
fn mixed() -> Described {
    let mut corpus = Described::default();
    for (name, global, outer) in [("/Script/É", 5, NULL), ("b\nc", 6, 5), ("Ring", 7, 7)] {
        let of = |n: u64| if n == NULL { n } else { 1 << 62 | n };
        corpus.add_object(Text::of(name), 0, of(global), of(outer));
    }
    let named = |name: &str| Package {
        names: vec![Text::of(name)],
        ..Package::default()
    };
    corpus.packages = vec![(1, named("/Game/B")), (2, named("/Game/A"))];
    let mut corpus = corpus.hashed();
    corpus.entries[1].global ^= 1;
    corpus.packages[1].0 ^= 1 << 63;
    corpus
}

const LINE: &str =
    "mismatch: 1 of 2 script paths and 1 of 2 package names have another hash than the build says";

#[test]
fn what_does_not_match_is_told() {
    let place = Place::new("verify-table");
    let corpus = mixed();
    let Ran { status, out, err } = verified(&place, &corpus, &[]);
    assert_eq!(status, 5);
    assert_eq!(err, format!("classreport: a.corpus: {LINE}\n"));
    let (index, ids) = (
        corpus.entries[1].global,
        [0, 1].map(|i| corpus.packages[i].0),
    );
    assert_eq!(
        out,
        format!(
            "objects  resolved  matches  mismatches\n      \
                   3         2        1           1\n\n\
             mismatched index    path\n\
             {index:#018x}  /Script/É.b\\nc\n\n\
             unresolved index    name\n\
             0x4000000000000007  Ring\n\n\
             matches  id                  package\n\
             no       {:#018x}  /Game/A\n\
             yes      {:#018x}  /Game/B\n",
            ids[1], ids[0]
        )
    );
    let json = verified(&place, &corpus, &["-q", "-f", "json"]);
    assert_eq!((json.status, json.err), (5, err));
    assert_eq!(
        json.out,
        format!(
            "{{\"objects\":3,\"resolved\":2,\"matches\":1,\"mismatches\":1,\
             \"mismatched\":[{{\"index\":\"{index:#018x}\",\"path\":\"/Script/É.b\\nc\"}}],\
             \"unresolved\":[{{\"index\":\"0x4000000000000007\",\"name\":\"Ring\"}}],\
             \"packages\":[{{\"matches\":true,\"id\":\"{:#018x}\",\"package\":\"/Game/B\"}},\
             {{\"matches\":false,\"id\":\"{:#018x}\",\"package\":\"/Game/A\"}}]}}\n",
            ids[0], ids[1]
        )
    );
}

#[test]
fn quiet_and_errors_for_programs() {
    let place = Place::new("verify-quiet");
    let quiet = verified(&place, &mixed(), &["-q", "--errors=json"]);
    assert_eq!((quiet.status, &*quiet.out), (5, ""));
    assert_eq!(
        quiet.err,
        format!(
            "{{\"error\":\"mismatch\",\"status\":5,\"file\":\"a.corpus\",\"message\":\"{LINE}\"}}\n"
        )
    );
    let right = verified(&place, &Described::default(), &["-q"]);
    assert_eq!((right.status, &*right.out, &*right.err), (0, "", ""));
}

/// Paths that are not known are no fault; a table names some of them, json all.
#[test]
fn unresolved_paths_are_shown() {
    let place = Place::new("verify-unresolved");
    let mut corpus = ladder::paths();
    corpus.packages.clear();
    let corpus = corpus.hashed();
    let deep = verified(&place, &corpus, &[]);
    assert_eq!((deep.status, &*deep.err), (0, ""));
    let start = "objects  resolved  matches  mismatches\n     66        65       65           0\n\nunresolved index ";
    assert!(deep.out.starts_with(start), "{}", deep.out);
    let mut lost = corpus;
    lost.entries[0].outer = 1 << 62;
    let lost_all = verified(&place, &lost, &[]);
    assert_eq!(lost_all.status, 0);
    assert!(
        lost_all.out.contains("\n… and 46 more\n"),
        "{}",
        lost_all.out
    );
    let json = verified(&place, &lost, &["-f", "json"]);
    assert_eq!(json.out.matches("\"name\":").count(), 66);
}

/// Builds, corpora, standard input and the example are checked alike, and a refused one has no counts.
#[test]
fn any_build_does() {
    let place = Place::with_example("verify-inputs");
    place.done(&["pack", "booth", "-o", "booth.corpus"]);
    let built = place.done(&["verify", "booth"]);
    assert_eq!(place.done(&["verify", "booth.corpus"]), built);
    assert_eq!(place.done(&["verify", "--example"]), built);
    let fed = place.fed(&["verify", "-"], &place.read("booth.corpus"));
    assert_eq!(String::from_utf8_lossy(&fed.stdout), built);
    place.write("bad.corpus", b"\0\0\0\x01\x02");
    let said = place.fails(1, &["verify", "bad.corpus"]);
    let version = "the corpus has a version other than 1";
    assert_eq!(
        said,
        format!("classreport: bad.corpus: refused 2 (block 0, the corpus): {version}\n")
    );
}

/// What the program finds agrees with what the call counts on every corpus.
#[test]
fn the_program_finds_what_the_call_counts() {
    let (mut wrong, mut lost) = (0, 0);
    for seed in 600_000..602_000 {
        let bytes = hashed(seed).bytes();
        let Ok(verified) = classreport::verify(&bytes) else {
            continue;
        };
        let corpus = classreport::Corpus::read(&bytes).expect("accepted");
        let headers = classreport::chain::Headers::read(&corpus, classreport::Limits::BOOTHS)
            .expect("agreed");
        let found = headers.findings(&verified).expect("agreed");
        wrong += found.mismatched.len();
        lost += found.unresolved.len();
        let mut other = verified.clone();
        other.mismatches += 1;
        assert!(headers.findings(&other).is_err(), "a disagreement");
    }
    println!("{wrong} mismatches and {lost} unresolved paths found");
    assert!(wrong > 1_000 && lost > 1_000);
}
