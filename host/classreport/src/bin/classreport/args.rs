//! The command line's words: options with and without a value, and operands.
use std::ffi::{OsStr, OsString};
use std::os::unix::ffi::OsStrExt;

use crate::failure::Failure;

/// An option. One with a value has a name for it, which the usage shows.
#[derive(Debug, Clone, Copy)]
pub struct Flag {
    pub long: &'static str,
    pub short: Option<char>,
    pub value: Option<&'static str>,
}

impl Flag {
    /// Whether a word is this option, with its value (if any) in the next word.
    pub fn is(&self, word: &OsStr) -> bool {
        let short = self.short.map(|letter| format!("-{letter}"));
        word == &*format!("--{}", self.long) || short.is_some_and(|short| word == &*short)
    }
}

/// What was given to a command.
#[derive(Debug, Default)]
pub struct Words {
    given: Vec<(&'static str, OsString)>,
    pub operands: Vec<OsString>,
}

impl Words {
    /// Sorts the words by these options. `--` ends the options, `-` is an operand.
    pub fn read(flags: &[Flag], words: impl Iterator<Item = OsString>) -> Result<Words, Failure> {
        let mut out = Words::default();
        let mut words = words;
        while let Some(word) = words.next() {
            match word.to_str() {
                Some("--") => {
                    out.operands.extend(words);
                    break;
                }
                Some("-") => out.operands.push(word),
                _ if word.as_encoded_bytes().starts_with(b"--") => {
                    out.long(flags, &word, &mut words)?;
                }
                _ if word.as_encoded_bytes().starts_with(b"-") => {
                    out.short(flags, &word, &mut words)?;
                }
                _ => out.operands.push(word),
            }
        }
        Ok(out)
    }

    /// `--long`, `--long=value`, `--long value`.
    fn long(
        &mut self,
        flags: &[Flag],
        word: &OsStr,
        words: &mut impl Iterator<Item = OsString>,
    ) -> Result<(), Failure> {
        let (name, joined) = split(word);
        let long = name.to_str().and_then(|name| name.strip_prefix("--"));
        let flag = flags.iter().find(|flag| Some(flag.long) == long);
        let flag = flag.ok_or_else(|| unknown(name))?;
        let value = match (flag.value, joined) {
            (None, Some(_)) => {
                return Err(Failure::usage(format!("--{} takes no value", flag.long)));
            }
            (None, None) => OsString::new(),
            (Some(_), Some(value)) => value.to_owned(),
            (Some(_), None) => next(flag, words)?,
        };
        self.given.push((flag.long, value));
        Ok(())
    }

    /// `-q`, `-o value`, `-ovalue`, and several of them in one word.
    fn short(
        &mut self,
        flags: &[Flag],
        word: &OsStr,
        words: &mut impl Iterator<Item = OsString>,
    ) -> Result<(), Failure> {
        let letters = word.to_str().ok_or_else(|| unknown(word))?;
        let mut letters = letters[1..].chars();
        while let Some(letter) = letters.next() {
            let flag = flags.iter().find(|flag| flag.short == Some(letter));
            let flag = flag.ok_or_else(|| unknown(OsStr::new(&format!("-{letter}"))))?;
            let joined = letters.as_str();
            let value = match flag.value {
                None => OsString::new(),
                Some(_) if joined.is_empty() => next(flag, words)?,
                Some(_) => joined.strip_prefix('=').unwrap_or(joined).into(),
            };
            self.given.push((flag.long, value));
            if flag.value.is_some() {
                break;
            }
        }
        Ok(())
    }

    pub fn has(&self, long: &str) -> bool {
        self.value(long).is_some()
    }

    /// An option's value; of an option given twice the last counts.
    pub fn value(&self, long: &str) -> Option<&OsStr> {
        let given = self.given.iter().rev().find(|(name, _)| *name == long);
        given.map(|(_, value)| value.as_os_str())
    }

    /// An option's value as text.
    pub fn text(&self, long: &str) -> Result<Option<&str>, Failure> {
        let Some(value) = self.value(long) else {
            return Ok(None);
        };
        let text = value.to_str();
        let text =
            text.ok_or_else(|| Failure::usage(format!("--{long}: the value is not UTF-8")))?;
        Ok(Some(text))
    }

    /// An option's value, which is one of these; without the option the first.
    pub fn choice<T: Copy>(&self, long: &str, choices: &[(&str, T)]) -> Result<T, Failure> {
        let Some(text) = self.text(long)? else {
            return Ok(choices[0].1);
        };
        let chosen = choices.iter().find(|(name, _)| *name == text);
        chosen.map(|(_, choice)| *choice).ok_or_else(|| {
            let names: Vec<&str> = choices.iter().map(|(name, _)| *name).collect();
            Failure::usage(format!(
                "--{long}: '{text}' is none of {}",
                names.join(", ")
            ))
        })
    }
}

fn next(flag: &Flag, words: &mut impl Iterator<Item = OsString>) -> Result<OsString, Failure> {
    let name = flag.value.unwrap_or_default();
    words.next().ok_or_else(|| {
        Failure::usage(format!(
            "--{} needs a value: --{} {name}",
            flag.long, flag.long
        ))
    })
}

fn unknown(word: &OsStr) -> Failure {
    Failure::usage(format!("there is no option '{}'", word.display()))
}

/// A word before and after its first `=`.
fn split(word: &OsStr) -> (&OsStr, Option<&OsStr>) {
    let bytes = word.as_bytes();
    let Some(place) = bytes.iter().position(|byte| *byte == b'=') else {
        return (word, None);
    };
    let (before, after) = (&bytes[..place], &bytes[place + 1..]);
    (OsStr::from_bytes(before), Some(OsStr::from_bytes(after)))
}
