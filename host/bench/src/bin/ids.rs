//! Times the id of a name beyond ASCII beside that of an ASCII name of the same length, by processor time: the median of
//! several rounds in which all names take turns.
use std::hint::black_box;
use std::time::Duration;

use clock::{now, timed};
use corpus::Text;
use oracle::cityhash::hash_package_name;

/// Lengths of names in units of their width; a surrogate pair is two.
const LENGTHS: [usize; 9] = [2, 4, 7, 8, 12, 16, 32, 64, 200];

const ROUNDS: usize = 15;

/// A name of so many units.
type Maker = fn(usize) -> Text;

/// What is timed; each is compared with the first, and with the first that is stored as it is.
const KINDS: [(&str, Maker); 12] = [
    ("ASCII", |n| Text::of(&repeated("NiagaraEffect_", n))),
    ("ASCII, wide", |n| {
        Text::wide(&repeated("NiagaraEffect_", n))
    }),
    ("Latin-1, some accents", |n| {
        Text::of(&repeated("Île_À_Côté_Noël_", n))
    }),
    ("Latin-1, all accents", |n| {
        Text::of(&repeated("ÉÀÔËÎÜÇÑ", n))
    }),
    ("wide, one Œ", |n| {
        Text::wide(&repeated("NiagaraEffect_", n).replacen('i', "Œ", 1))
    }),
    ("wide, Polish and Czech", |n| {
        Text::wide(&repeated("ŁódźŚcieżkaČeštinaŘ", n))
    }),
    ("wide, Vietnamese", |n| {
        Text::wide(&repeated("ẤmThửNghiệmỂƠƯ", n))
    }),
    ("wide, Cyrillic", |n| Text::wide(&repeated("ЗвукТест", n))),
    ("wide, Greek capitals", |n| {
        Text::wide(&repeated("ΑΒΓΔΕΣΩ", n))
    }),
    ("wide, Greek with accents", |n| {
        Text::wide(&repeated("ΉχοςΆσμαΌργανο", n))
    }),
    ("wide, no letter has a capital", |n| {
        Text::wide(&repeated("音声테스트", n))
    }),
    ("wide, surrogate pairs", |n| {
        Text::wide(&repeated("𐐀𐐁𞤀𑢠", n / 2))
    }),
];

/// The characters of a word over and over, so many of them.
fn repeated(word: &str, n: usize) -> String {
    word.chars().cycle().take(n).collect()
}

/// A name as a block holds it.
struct Stored {
    part: Vec<u8>,
    wide: bool,
}

impl Stored {
    fn of(text: &Text) -> Stored {
        let mut part = Vec::new();
        text.write(&mut part);
        let wide = matches!(text, Text::Utf16(_));
        let rendered = corpus::name::decoded(&part, wide).expect("a text");
        let id = text::name_id(&part, wide, 0);
        assert_eq!(id, hash_package_name(&rendered), "{rendered}");
        Stored { part, wide }
    }

    fn id(&self) -> u64 {
        text::name_id(black_box(&self.part), self.wide, 0)
    }

    /// How many calls take some 2 ms.
    fn calls(&self) -> u32 {
        let began = now();
        let mut calls = 0;
        while now().saturating_sub(began) < Duration::from_millis(2) {
            black_box(self.id());
            calls += 1;
        }
        calls
    }

    /// Nanoseconds a call in one round.
    fn round(&self, calls: u32) -> f64 {
        let ((), time) = timed(|| {
            for _ in 0..calls {
                black_box(self.id());
            }
        });
        time.as_nanos() as f64 / f64::from(calls)
    }
}

fn median(mut times: Vec<f64>) -> f64 {
    times.sort_by(f64::total_cmp);
    times[times.len() / 2]
}

/// The names of one length: nanoseconds a call of each.
fn timed_in_turns(names: &[Stored]) -> Vec<f64> {
    let calls: Vec<u32> = names.iter().map(Stored::calls).collect();
    let mut times = vec![Vec::new(); names.len()];
    for _ in 0..ROUNDS {
        for ((name, calls), times) in names.iter().zip(&calls).zip(&mut times) {
            times.push(name.round(*calls));
        }
    }
    times.into_iter().map(median).collect()
}

fn main() {
    if std::env::args().len() > 1 {
        eprintln!("usage: ids (it takes no arguments)");
        std::process::exit(2);
    }
    println!(
        "median of {ROUNDS} rounds; ratios to the ASCII name of the same length, and to the one of the same width"
    );
    for length in LENGTHS {
        let names = KINDS.map(|(_, of)| Stored::of(&of(length)));
        let times = timed_in_turns(&names);
        for (((what, _), name), time) in KINDS.iter().zip(&names).zip(&times) {
            let same_width = times[usize::from(name.wide)];
            println!(
                "{length:>4} units  {what:<30} {time:8.1} ns  {:5.2}  {:5.2}",
                time / times[0],
                time / same_width
            );
        }
    }
}
