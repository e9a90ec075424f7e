//! The page of `show -f html`.
use crate::python::read_back;
use crate::rows::{NAMES, odd_names};
use crate::tool::Place;

#[test]
fn a_page_shows_every_name_as_it_is() {
    let place = Place::new("pages");
    place.write("odd.corpus", &odd_names());
    place.done(&[
        "show",
        "-f",
        "html",
        "--columns",
        "native",
        "odd.corpus",
        "-o",
        "odd.html",
    ]);
    let Some(rows) = read_back("html", &place.0.join("odd.html")) else {
        return;
    };
    assert_eq!(rows[0], ["native", "chain"]);
    for (row, (_, shown)) in rows[1..].iter().zip(NAMES) {
        assert_eq!(*row, [shown, "chain"]);
    }
    assert_eq!(rows[NAMES.len() + 1], ["(unknown)", "chain"]);
}

#[test]
fn chains_are_drawn_from_a_corpus_alone() {
    let place = Place::with_example("pages-chains");
    let page = place.done(&["show", "-f", "html", "booth"]);
    for drawn in [
        "<li class=\"class\" data-by=\"class\"><bdi>/Game/Sound/BP_Speaker.BP_Speaker_C</bdi>",
        "<li class=\"class\" data-by=\"super\"><bdi>/Game/Sound/BP_Sound.BP_Sound_C</bdi>",
        "<li class=\"native\" data-by=\"super\"><bdi>/Script/Engine.AudioComponent</bdi>",
        "<li class=\"outer\" data-by=\"lies in\"><bdi>/Script/Engine</bdi>",
        "<bdi>a ring: back to class 1, /Game/Sound/BP_Echo.BP_Echo_C</bdi>",
        "<bdi>the package is missing: no package of the build has its id 0xd0815b695ec3de5f</bdi>",
    ] {
        assert!(page.contains(drawn), "{drawn}\n{page}");
    }
    place.done(&["report", "booth", "-o", "booth.report"]);
    let page = place.done(&["show", "-f", "html", "booth.report"]);
    assert!(!page.contains("class=\"chain\"") && !page.contains("href="));
    assert!(page.contains("Chains are not in a report: give the corpus or the build to see them."));
}

#[test]
fn a_page_of_nothing() {
    let place = Place::new("pages-empty");
    place.write("empty.corpus", &corpus::corpus(&[0; 8], &[]));
    let page = place.done(&["show", "-f", "html", "empty.corpus"]);
    assert!(page.contains("0 rows in 0 packages") && page.ends_with("</html>\n"));
}
