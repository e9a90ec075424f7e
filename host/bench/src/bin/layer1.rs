//! Times layer 1 in one run, proved and in Rust, by processor time, best of several: CityHash64 against the stand-in, and
//! the id of a name against the reference's `hash_package_name`, which is handed the rendered text.
use std::hint::black_box;
use std::time::Duration;

use clock::{now, timed};
use corpus::{Text, name};
use oracle::cityhash::hash_package_name;

/// How many calls take some 2 ms.
fn calls(f: &mut impl FnMut() -> u64) -> u32 {
    let began = now();
    let mut calls = 0;
    while now().saturating_sub(began) < Duration::from_millis(2) {
        black_box(f());
        calls += 1;
    }
    calls
}

/// Nanoseconds a call in one round.
fn round(calls: u32, f: &mut impl FnMut() -> u64) -> f64 {
    let ((), time) = timed(|| {
        for _ in 0..calls {
            black_box(f());
        }
    });
    time.as_nanos() as f64 / f64::from(calls)
}

/// Nanoseconds a call of each, the best of 25 rounds that take turns, so that a busy machine slows both.
fn best(mut f: impl FnMut() -> u64, mut g: impl FnMut() -> u64) -> (f64, f64) {
    let (fs, gs) = (calls(&mut f), calls(&mut g));
    (0..25).fold((f64::MAX, f64::MAX), |(a, b), _| {
        (a.min(round(fs, &mut f)), b.min(round(gs, &mut g)))
    })
}

fn line(what: &str, bytes: usize, rattle: f64, rust: f64) {
    let per = |ns: f64| ns / bytes.max(1) as f64;
    println!(
        "{what:<28} {bytes:>7} bytes: Rattle {:8.3} ns/byte, Rust {:8.3} ns/byte, ratio {:.2}",
        per(rattle),
        per(rust),
        rattle / rust
    );
}

fn hashes() {
    for n in [8, 16, 32, 64, 128, 1_000, 100_000] {
        let s: Vec<u8> = (0..n).map(|i| (i * 37 + 11) as u8).collect();
        let (rattle, rust) = best(
            || text::city_hash64(black_box(&s)),
            || cityhasher::hash(black_box(&s)),
        );
        line("CityHash64", n, rattle, rust);
    }
}

/// The id of a name of so many letters.
fn id(what: &str, letters: usize, of: fn(&str) -> Text, number: u32) {
    let letter = |i: usize| char::from(b'A' + (i % 50) as u8);
    let base: String = (0..letters).map(letter).collect();
    let stored = of(&base);
    let wide = matches!(stored, Text::Utf16(_));
    let mut part = Vec::new();
    stored.write(&mut part);
    let rendered = name::rendered(&base, number);
    let id = text::name_id(&part, wide, number);
    assert_eq!(id, hash_package_name(&rendered));
    let (rattle, rust) = best(
        || text::name_id(black_box(&part), wide, number),
        || hash_package_name(black_box(&rendered)),
    );
    line(what, part.len(), rattle, rust);
}

fn main() {
    if std::env::args().len() > 1 {
        eprintln!("usage: layer1 (it takes no arguments)");
        std::process::exit(2);
    }
    hashes();
    for letters in [8, 24, 40, 80, 1_000, 32_767] {
        id("id, one-byte", letters, Text::of, 0);
        id("id, wide and numbered", letters, Text::wide, 12);
    }
}
