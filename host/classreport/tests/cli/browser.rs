//! The page in a real browser, where one is installed, and its script in Node, where that is.
use std::process::Command;

use crate::tool::Place;

const BROWSERS: [&str; 4] = [
    "chromium",
    "chromium-browser",
    "google-chrome",
    "google-chrome-stable",
];

#[test]
fn a_browser_runs_the_page() {
    let place = Place::with_example("browser");
    place.done(&["show", "-f", "html", "booth", "-o", "booth.html"]);
    let page = format!("file://{}", place.0.join("booth.html").display());
    let words = [
        "--headless",
        "--disable-gpu",
        "--no-sandbox",
        "--dump-dom",
        &page,
    ];
    let ran = BROWSERS
        .iter()
        .find_map(|name| Command::new(name).args(words).output().ok());
    let Some(ran) = ran.filter(|ran| ran.status.success()) else {
        println!("no browser is at hand that runs without a screen: the page is not opened in one");
        return;
    };
    let page = String::from_utf8_lossy(&ran.stdout);
    assert!(
        page.contains("6 of 6 rows"),
        "the page's script counts its rows: {page}"
    );
}

#[test]
fn the_script_filters_and_draws() {
    let place = Place::with_example("browser-script");
    place.done(&["show", "-f", "html", "booth", "-o", "booth.html"]);
    let script = concat!(env!("CARGO_MANIFEST_DIR"), "/tests/cli/page.js");
    let page = place.0.join("booth.html");
    let Ok(ran) = Command::new("node").arg(script).arg(page).output() else {
        println!("no Node is at hand: the page's script is not run by it");
        return;
    };
    let told =
        String::from_utf8_lossy(&ran.stdout).into_owned() + &String::from_utf8_lossy(&ran.stderr);
    let counts = "6 of 6 rows\n2 of 6 rows\n2 of 6 rows\n0 of 6 rows\n6 of 6 rows\n";
    assert_eq!(
        told,
        format!("{counts}false\n5\nfalse\n#chain-0 > .chain\n")
    );
}
