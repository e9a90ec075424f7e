//! Times the contestants on generated corpora, by processor time, best of several rounds.
use std::process::ExitCode;
use std::time::Duration;

use answer::Refusal;

mod reference;

const USAGE: &str = "usage: bench [--seed NUMBER] [--rounds NUMBER] [MEGABYTES ...]
Times the reference's parts on a generated corpus of each size (1, 10 and 100 MB), best of 5 rounds.";

/// The most that a corpus's 4-byte length can count, in MB.
const MOST_MEGABYTES: usize = 4_000;

/// One who is timed: the parts it tells apart, and a round over a corpus that gives a time for each.
struct Contestant {
    name: &'static str,
    parts: &'static [&'static str],
    round: fn(&[u8]) -> Result<Vec<Duration>, Refusal>,
}

const CONTESTANTS: [Contestant; 1] = [Contestant {
    name: "reference",
    parts: &reference::PARTS,
    round: reference::round,
}];

struct Options {
    seed: u64,
    rounds: u64,
    megabytes: Vec<usize>,
}

fn number(word: Option<String>) -> Result<u64, String> {
    let word = word.ok_or("a number is missing")?;
    word.parse().map_err(|_| format!("not a number: {word}"))
}

fn options(mut words: impl Iterator<Item = String>) -> Result<Options, String> {
    let mut options = Options {
        seed: 1,
        rounds: 5,
        megabytes: Vec::new(),
    };
    while let Some(word) = words.next() {
        match word.as_str() {
            "--seed" => options.seed = number(words.next())?,
            "--rounds" => options.rounds = number(words.next())?,
            _ => options.megabytes.push(number(Some(word))? as usize),
        }
    }
    if options.rounds == 0 {
        return Err("at least one round is needed".to_owned());
    }
    if options.megabytes.is_empty() {
        options.megabytes = vec![1, 10, 100];
    }
    match options
        .megabytes
        .iter()
        .find(|m| !(1..=MOST_MEGABYTES).contains(*m))
    {
        Some(wrong) => Err(format!(
            "a corpus has 1 to {MOST_MEGABYTES} MB, not {wrong}"
        )),
        None => Ok(options),
    }
}

/// The best time of each part.
fn best(contestant: &Contestant, corpus: &[u8], rounds: u64) -> Result<Vec<Duration>, String> {
    let mut best = vec![Duration::MAX; contestant.parts.len()];
    for _ in 0..rounds {
        let times = (contestant.round)(corpus).map_err(|(refusal, block)| {
            format!(
                "{} refuses with {refusal} in block {block}",
                contestant.name
            )
        })?;
        for (best, time) in best.iter_mut().zip(times) {
            *best = time.min(*best);
        }
    }
    Ok(best)
}

fn run(options: &Options) -> Result<(), String> {
    println!(
        "seed {}, best of {} rounds, processor time",
        options.seed, options.rounds
    );
    for megabytes in &options.megabytes {
        let corpus = corpus::generate::generate(options.seed, megabytes * 1_000_000);
        println!("{} bytes", corpus.len());
        for contestant in &CONTESTANTS {
            let times = best(contestant, &corpus, options.rounds)?;
            for (part, time) in contestant.parts.iter().zip(times) {
                let ms = time.as_secs_f64() * 1e3;
                let each = ms / (corpus.len() as f64 / 1e6);
                println!(
                    "  {} {part:22}{ms:10.2} ms{each:8.3} ms/MB",
                    contestant.name
                );
            }
        }
    }
    Ok(())
}

fn main() -> ExitCode {
    let done = options(std::env::args().skip(1))
        .map_err(|wrong| format!("{wrong}\n{USAGE}"))
        .and_then(|options| run(&options));
    match done {
        Ok(()) => ExitCode::SUCCESS,
        Err(wrong) => {
            eprintln!("bench: {wrong}");
            ExitCode::from(2)
        }
    }
}
