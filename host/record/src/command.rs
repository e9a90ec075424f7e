//! The command: where its two files go is settled before the oracle is asked anything.
use std::ffi::OsString;
use std::path::{Path, PathBuf};

use crate::files::replace;

const USAGE: &str = "usage: record FILE
Writes the recorded list to FILE, and its sum beside it with the ending `sum`. FILE has another ending, and its folder is there.";

/// Why nothing was written.
#[derive(Debug)]
pub enum Failure {
    /// the arguments are wrong
    Usage(String),
    /// the files can't be written
    Files(String),
}

/// Takes the command's arguments and a maker of the list; what is to be printed.
pub fn run(words: &[OsString], list: impl FnOnce() -> Vec<u8>) -> Result<String, Failure> {
    let (file, beside) =
        places(words).map_err(|wrong| Failure::Usage(format!("{wrong}\n{USAGE}")))?;
    let list = list();
    let sum = corpus::list::sum(&list);
    replace(&[(&file, &list), (&beside, sum.as_bytes())])
        .map_err(|error| Failure::Files(format!("cannot write {}: {error}", file.display())))?;
    Ok(format!("{} bytes, sum {}", list.len(), sum.trim_end()))
}

/// Where the list and its sum go, or what is wrong with that.
fn places(words: &[OsString]) -> Result<(PathBuf, PathBuf), String> {
    let [file] = words else {
        return Err(format!("{} arguments", words.len()));
    };
    let file = PathBuf::from(file);
    if file.extension().is_none_or(|ending| ending == "sum") {
        return Err(format!("{}: no ending, or that of the sum", file.display()));
    }
    let folder = file.parent().filter(|folder| *folder != Path::new(""));
    if folder.is_some_and(|folder| !folder.is_dir()) {
        return Err(format!("{}: its folder is not there", file.display()));
    }
    let beside = file.with_extension("sum");
    for place in [&file, &beside] {
        if place.exists() && !place.is_file() {
            return Err(format!("{} is no file", place.display()));
        }
    }
    Ok((file, beside))
}
