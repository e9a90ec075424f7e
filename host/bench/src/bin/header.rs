//! Times the writing of headers, by processor time, best of several rounds. The reference writes none; beside the call are
//! the model, which is plain Rust, and a copy of description and header, below which no call can be.
use std::hint::black_box;
use std::process::ExitCode;
use std::time::Duration;

use bench::options::{Options, options};
use bench::race::best;
use corpus::decode::decode;
use corpus::generate::generate;
use corpus::{Description, Export};

const USAGE: &str = "usage: header [--rounds NUMBER] [--only WORDS]
Times the call on descriptions of headers of 1, 10 and 100 MB, best of 9 rounds or more. With --only, those whose names have
the words in them.";

const MEGABYTES: [usize; 3] = [1, 10, 100];

/// A description whose header has about so many bytes.
type Maker = fn(usize) -> Description;

const KINDS: [(&str, Maker); 14] = [
    ("names of a corpus", of_a_corpus),
    ("short ASCII names", |n| names("NiagaraEffect_", SHORT, n)),
    ("long ASCII names", |n| names("NiagaraEffect_", LONG, n)),
    ("short names with accents", |n| {
        names("Île_À_Côté_Noël_", SHORT, n)
    }),
    ("long names with accents", |n| {
        names("Île_À_Côté_Noël_", LONG, n)
    }),
    ("short wide names", |n| names("音声テスト", SHORT, n)),
    ("long wide names", |n| names("音声テスト", LONG, n)),
    ("long names of surrogate pairs", |n| names("🎯🎧", LONG, n)),
    ("short Cyrillic names", |n| {
        names("Звук_колокола_", SHORT, n)
    }),
    ("long Cyrillic names", |n| names("Звук_колокола_", LONG, n)),
    ("short mixed names", |n| {
        names("音声テスト_01_Niagara_", SHORT, n)
    }),
    ("long mixed names", |n| {
        names("音声テスト_01_Niagara_", LONG, n)
    }),
    ("exports", exports),
    ("imported names", |n| {
        let described = names("/Game/Audio_", SHORT, n - n / 5);
        let imported = described.texts.into_iter().map(|text| (text, 1));
        Description {
            texts: vec![String::new()],
            imported: imported.collect(),
            ..Description::default()
        }
    }),
];

/// The least length of names, and how far they differ.
const SHORT: [usize; 2] = [8, 17];
const LONG: [usize; 2] = [200, 1_601];

/// Names of a word over and over, of many lengths.
fn names(word: &str, [least, differ]: [usize; 2], bytes: usize) -> Description {
    let lengths = (0..).map(|i| least + 48_271 * i % differ);
    filled(
        lengths.map(|n| word.chars().cycle().take(n).collect()),
        bytes,
    )
}

/// The names of a corpus as a game's build has them, over and over: most are ASCII, some have accents or are wide.
fn of_a_corpus(bytes: usize) -> Description {
    let corpus = decode(&generate(1, 10_000_000));
    let names = (corpus.packages.iter()).flat_map(|package| &package.batch.names);
    filled(names.map(|name| name.text.clone()).cycle(), bytes)
}

/// As many of the texts as a header of so many bytes has.
fn filled(all: impl Iterator<Item = String>, bytes: usize) -> Description {
    let mut texts = Vec::new();
    let mut size = 0;
    for text in all {
        if size >= bytes {
            break;
        }
        let wide = text.chars().any(|c| c > '\u{ff}');
        size += 10 + text.encode_utf16().count() * if wide { 2 } else { 1 };
        texts.push(text);
    }
    Description {
        texts,
        ..Description::default()
    }
}

/// Exports, with a name for every tenth.
fn exports(bytes: usize) -> Description {
    let count = bytes / 75;
    let texts: Vec<String> = (0..=count / 10).map(|i| format!("Export{i}")).collect();
    let export = |i: usize| Export {
        name: (48_271 * i % texts.len()) as u32,
        number: i as u32,
        outer: i as u64 / 2,
        class: u64::MAX,
        super_index: 1 << 62 | i as u64,
        hash: (i as u64).wrapping_mul(0x9e37_79b9_7f4a_7c15),
    };
    Description {
        exports: (0..count).map(export).collect(),
        texts,
        ..Description::default()
    }
}

/// Times a description and prints a line about it.
fn line(name: &str, description: &[u8], rounds: u64) {
    let length = model::class_header(description, u64::MAX).map_or(0, |header| header.len());
    let mut header = vec![0xa5; length];
    let mut room = vec![0; description.len() + header.len()];
    let [mut ours, mut model, mut copy] = [Duration::MAX; 3];
    for _ in 0..rounds {
        let number = best(&mut ours, || {
            report::class_header(black_box(description), &mut header)
        });
        assert_eq!(number, length as u64, "the number");
        let other = best(&mut model, || {
            model::class_header(black_box(description), u64::MAX)
        });
        assert!(other.as_ref() == Ok(&header), "the header");
        best(&mut copy, || {
            let (first, second) = black_box(&mut room[..]).split_at_mut(description.len());
            first.copy_from_slice(black_box(description));
            second.copy_from_slice(black_box(&header));
        });
    }
    let ms = |time: Duration| time.as_secs_f64() * 1e3;
    let mb = |bytes: usize| bytes as f64 / 1e6;
    println!(
        "{name:<38} {:>14.2} {:>9.2} {:>9.2} {:>9.2} {:>5.2} {:>9.2} {:>5.1}",
        mb(description.len()),
        mb(header.len()),
        ms(model),
        ms(ours),
        header.len() as f64 / 1e9 / ours.as_secs_f64(),
        ms(copy),
        ours.as_secs_f64() / copy.as_secs_f64()
    );
}

fn all(options: &Options) {
    println!(
        "processor time, best of {} rounds or more; memcpy: a copy of description and header; ratio: ours to that",
        options.rounds
    );
    println!(
        "{:<38} {:>14} {:>9} {:>9} {:>9} {:>5} {:>9} {:>5}",
        "", "description MB", "header MB", "model ms", "ours ms", "GB/s", "memcpy ms", "ratio"
    );
    for (kind, of) in KINDS {
        for megabytes in MEGABYTES {
            let name = format!("{kind}, {megabytes} MB");
            if name.contains(&options.only) {
                // The small ones take little time, and more rounds.
                let rounds = options.rounds * (20 / megabytes as u64).max(1);
                line(&name, &of(megabytes * 1_000_000).bytes(), rounds);
            }
        }
    }
}

fn main() -> ExitCode {
    match options(std::env::args().skip(1)) {
        Ok(options) => {
            all(&options);
            ExitCode::SUCCESS
        }
        Err(wrong) => {
            eprintln!("header: {wrong}\n{USAGE}");
            ExitCode::from(2)
        }
    }
}
