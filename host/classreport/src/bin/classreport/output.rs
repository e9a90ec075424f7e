//! Where a command writes to: standard output, or a file that is written beside its place and then renamed.
use std::fs::{self, File};
use std::io::{self, BufWriter, IsTerminal, Write};
use std::path::{Path, PathBuf};
use std::process;

use crate::args::Words;
use crate::failure::Failure;

/// Whether a terminal may show it.
#[derive(Clone, Copy, PartialEq, Eq)]
pub enum Holds {
    Text,
    Bytes,
}

/// What writes the output.
pub type Body<'a> = dyn FnOnce(&mut dyn Write) -> io::Result<()> + 'a;

/// Writes to where `-o` says. A file is there only when all of it was written; until then what was there stays.
pub fn write(words: &Words, holds: Holds, body: Box<Body>) -> Result<(), Failure> {
    let file = words.value("output").filter(|file| *file != "-");
    match file {
        Some(file) => to_named(Path::new(file), body),
        None => to_stdout(holds, body),
    }
}

/// Writes a text.
pub fn write_text(words: &Words, text: &str) -> Result<(), Failure> {
    let body = |out: &mut dyn Write| out.write_all(text.as_bytes());
    write(words, Holds::Text, Box::new(body))
}

/// Writes what is no text.
pub fn write_bytes(words: &Words, bytes: &[u8]) -> Result<(), Failure> {
    let body = |out: &mut dyn Write| out.write_all(bytes);
    write(words, Holds::Bytes, Box::new(body))
}

/// Writes a file of this name, whatever `-o` says.
pub fn write_file(file: &Path, bytes: &[u8]) -> Result<(), Failure> {
    let body = |out: &mut dyn Write| out.write_all(bytes);
    to_named(file, Box::new(body))
}

fn to_named(file: &Path, body: Box<Body>) -> Result<(), Failure> {
    to_file(file, body).map_err(|error| Failure::files(&error).about(file))
}

fn to_stdout(holds: Holds, body: Box<Body>) -> Result<(), Failure> {
    let stdout = io::stdout();
    if holds == Holds::Bytes && stdout.is_terminal() {
        return Err(Failure::usage(
            "this is no text for a terminal: name a file with -o FILE, or pipe it on",
        ));
    }
    let mut out = BufWriter::with_capacity(1 << 16, stdout.lock());
    let written = body(&mut out).and_then(|()| out.flush());
    // What could not be written is not tried again.
    let _ = out.into_parts();
    written.map_err(|error| Failure::files(&error).about("standard output"))
}

fn to_file(file: &Path, body: Box<Body>) -> io::Result<()> {
    // A link stays, and what it leads to is written.
    let file = fs::canonicalize(file).unwrap_or(file.to_owned());
    let before = fs::metadata(&file).ok();
    if before.as_ref().is_some_and(|there| !there.is_file()) {
        return through(File::options().write(true).open(&file)?, body);
    }
    let beside = beside(&file);
    let written = File::create_new(&beside)
        .and_then(|new| through(new, body))
        .and_then(|()| {
            before.map_or(Ok(()), |old| {
                fs::set_permissions(&beside, old.permissions())
            })
        })
        .and_then(|()| fs::rename(&beside, &file));
    if written.is_err() {
        let _ = fs::remove_file(&beside);
    }
    written
}

fn through(file: File, body: Box<Body>) -> io::Result<()> {
    let mut out = BufWriter::with_capacity(1 << 16, file);
    let written = body(&mut out).and_then(|()| out.flush());
    let (file, _) = out.into_parts();
    written?;
    if file.metadata()?.is_file() {
        file.sync_all()?;
    }
    Ok(())
}

/// A hidden name in the same folder.
pub fn beside(file: &Path) -> PathBuf {
    let mut name = std::ffi::OsString::from(".");
    name.push(file.file_name().unwrap_or_default());
    name.push(format!(".{}.partial", process::id()));
    file.with_file_name(name)
}
