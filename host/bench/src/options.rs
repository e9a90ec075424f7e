//! The words that the benchmarks of whole calls take.

/// How often, how large, and which.
pub struct Options {
    pub rounds: u64,
    pub rows: u32,
    pub only: String,
}

fn number(word: &str) -> Result<u32, String> {
    let number = word.parse().ok().filter(|n| *n > 0);
    number.ok_or(format!("not a number from 1 on: {word}"))
}

pub fn options(mut words: impl Iterator<Item = String>) -> Result<Options, String> {
    let mut options = Options {
        rounds: 9,
        rows: 100_000,
        only: String::new(),
    };
    while let Some(word) = words.next() {
        let next = words.next().ok_or(format!("nothing behind {word}"))?;
        match word.as_str() {
            "--rounds" => options.rounds = number(&next)?.into(),
            "--rows" => options.rows = number(&next)?,
            "--only" => options.only = next,
            _ => return Err(format!("not known: {word}")),
        }
    }
    Ok(options)
}
