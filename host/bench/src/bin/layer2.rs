//! Times layer 2 by processor time, best of several: the cost of reaching a name in a package with as many names and
//! exports as there are likely to be, and the check of a package against the reference's reading, in one run.
use std::hint::black_box;
use std::time::Duration;

use corpus::generate::generate;
use corpus::{Export, Package, Text};
use oracle::frame::parts;
use oracle::zen::parse_package_header;

const ROUNDS: usize = 9;

/// The best time of a function.
fn best<T>(mut run: impl FnMut() -> T) -> Duration {
    let round = |_| clock::timed(|| black_box(run())).1;
    (0..ROUNDS).map(round).min().expect("several rounds")
}

/// A package whose exports take their names from all over a batch of this many.
fn package(names: u32, exports: u32) -> Vec<u8> {
    let mut package = Package::default();
    let name = |i| Text::of(&format!("SomeComponentTemplateName{i}"));
    package.names.extend((0..names).map(name));
    package.exports.extend((0..exports).map(|i| Export {
        name: (u64::from(i) * 48_271 % u64::from(names)) as u32,
        number: i,
        outer: u64::MAX,
        class: u64::MAX,
        super_index: u64::MAX,
        hash: i.into(),
    }));
    package.bytes()
}

/// The cost of the check; and of an export with the place of its name, the notes of where names start included.
fn reach(names: u32, exports: u32) {
    let block = package(names, exports);
    assert_eq!(zen::check_package(&block), 0, "an accepted package");
    let check = best(|| zen::check_package(black_box(&block)));
    let whole = best(|| zen::names_ends(black_box(&block)));
    let reference = best(|| parse_package_header(black_box(&block)).is_ok());
    let each = whole.saturating_sub(check).as_nanos() as f64 / f64::from(exports);
    println!(
        "{names:>6} names, {exports:>6} exports, {:>8} bytes: check {check:?}, {each:.1} ns an export and its name; parse_package_header {reference:?}",
        block.len()
    );
}

/// The check of all packages of a generated corpus, which makes nothing, and the reference's reading, which makes strings.
fn read(bytes: usize) {
    let corpus = generate(1, bytes);
    let packages = parts(&corpus).expect("a sound corpus").packages;
    let size: usize = packages.iter().map(|(_, p)| p.len()).sum();
    let check = best(|| packages.iter().all(|(_, p)| zen::check_package(p) == 0));
    let reference = best(|| {
        packages
            .iter()
            .all(|(_, p)| parse_package_header(p).is_ok())
    });
    let rate = |time: Duration| size as f64 / 1e6 / time.as_secs_f64();
    println!(
        "{:>6} packages, {size:>9} bytes: check {:7.1} MB/s, parse_package_header {:7.1} MB/s, {:.2} times",
        packages.len(),
        rate(check),
        rate(reference),
        rate(check) / rate(reference)
    );
}

fn main() {
    if std::env::args().len() > 1 {
        eprintln!("usage: layer2 (it takes no arguments)");
        std::process::exit(2);
    }
    for (names, exports) in [(256, 200), (4_096, 3_000), (65_536, 50_000)] {
        reach(names, exports);
    }
    for bytes in [1_000_000, 10_000_000, 50_000_000] {
        read(bytes);
    }
}
