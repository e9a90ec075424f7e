//! A build as a folder: `script.bin`, and the packages in `packages/` or as `packages.tsv` lists them.
use std::fmt::Write;
use std::fs;
use std::io;
use std::path::{Path, PathBuf};

use classreport::{Corpus, CorpusBuilder};

use crate::failure::Failure;
use crate::output::beside;

/// A package's id and file.
type Listed = (u64, PathBuf);

/// A corpus made from a folder.
pub struct Packed {
    pub bytes: Vec<u8>,
    /// the files of its blocks: the script block's, then the packages'
    pub files: Vec<PathBuf>,
}

/// Reads a build and makes a corpus of it, with the packages in their order or in reverse.
pub fn pack(build: &Path, reverse: bool) -> Result<Packed, Failure> {
    let script_file = build.join("script.bin");
    let mut packages = listed(build)?;
    if reverse {
        packages.reverse();
    }
    let script = read(&script_file)?;
    let mut room = 0;
    for (_, file) in &packages {
        room += 12 + size(file)?;
    }
    let too_long = |error: classreport::TooLong| Failure::malformed(error.to_string()).about(build);
    let mut builder = CorpusBuilder::with_room(&script, room).map_err(too_long)?;
    for (id, file) in &packages {
        builder.add(*id, &read(file)?).map_err(too_long)?;
    }
    let files = packages.into_iter().map(|(_, file)| file);
    Ok(Packed {
        bytes: builder.finish(),
        files: std::iter::once(script_file).chain(files).collect(),
    })
}

pub fn read(file: &Path) -> Result<Vec<u8>, Failure> {
    fs::read(file).map_err(|error| Failure::files(&error).about(file))
}

fn size(file: &Path) -> Result<usize, Failure> {
    let there = fs::metadata(file).map_err(|error| Failure::files(&error).about(file))?;
    Ok(there.len() as usize)
}

/// The packages in corpus order.
fn listed(build: &Path) -> Result<Vec<Listed>, Failure> {
    let (list, folder) = (build.join("packages.tsv"), build.join("packages"));
    if list.exists() {
        by_list(build, &list)
    } else if folder.is_dir() {
        by_name(&folder)
    } else {
        let wrong = "it is no build: it has neither packages/ nor packages.tsv";
        Err(Failure::malformed(wrong).about(build))
    }
}

/// A line for each package: its id, a tab, its file in the build.
fn by_list(build: &Path, list: &Path) -> Result<Vec<Listed>, Failure> {
    let text = String::from_utf8(read(list)?);
    let text = text.map_err(|_| Failure::malformed("it is not UTF-8").about(list))?;
    let mut packages = Vec::new();
    for (number, line) in (1..).zip(text.lines()).filter(|(_, line)| !line.is_empty()) {
        let parts = line.split_once('\t').filter(|(_, file)| !file.is_empty());
        let entry = parts.and_then(|(id, file)| Some((hexadecimal(id)?, build.join(file))));
        packages.push(entry.ok_or_else(|| {
            let wrong = format!("line {number} is not 16 hexadecimal digits, a tab and a file");
            Failure::malformed(wrong).about(list)
        })?);
    }
    Ok(packages)
}

/// `ID.bin` for each package, by rising ids. Hidden files are left out; any other is an error, so that none is lost.
fn by_name(folder: &Path) -> Result<Vec<Listed>, Failure> {
    let failed = |error: io::Error| Failure::files(&error).about(folder);
    let mut packages = Vec::new();
    for entry in fs::read_dir(folder).map_err(failed)? {
        let name = entry.map_err(failed)?.file_name();
        if name.as_encoded_bytes().starts_with(b".") {
            continue;
        }
        let id = name.to_str().and_then(|name| name.strip_suffix(".bin"));
        let file = folder.join(&name);
        let id = id.and_then(hexadecimal).ok_or_else(|| {
            let wrong = "a package's file is called by its id: 16 hexadecimal digits and .bin";
            Failure::malformed(wrong).about(&file)
        })?;
        packages.push((id, file));
    }
    packages.sort();
    if let Some(twice) = packages.windows(2).find(|two| two[0].0 == two[1].0) {
        let wrong = "another file has the same id: list both in packages.tsv";
        return Err(Failure::malformed(wrong).about(&twice[1].1));
    }
    Ok(packages)
}

/// The number in 16 hexadecimal digits.
fn hexadecimal(text: &str) -> Option<u64> {
    let digits = text.len() == 16 && text.bytes().all(|byte| byte.is_ascii_hexdigit());
    digits.then(|| u64::from_str_radix(text, 16).ok()).flatten()
}

/// Writes a corpus as a folder, which is there only when all of it was written.
pub fn unpack(corpus: &Corpus, build: &Path) -> Result<(), Failure> {
    let failed = |error: &io::Error| Failure::files(error).about(build);
    if fs::read_dir(build).is_ok_and(|mut entries| entries.next().is_some()) {
        let wrong = io::Error::new(
            io::ErrorKind::AlreadyExists,
            "the folder is there and not empty",
        );
        return Err(failed(&wrong));
    }
    let whole = build.components().as_path();
    let beside = beside(whole);
    let written = fill(corpus, &beside).and_then(|()| fs::rename(&beside, whole));
    if written.is_err() {
        let _ = fs::remove_dir_all(&beside);
    }
    written.map_err(|error| failed(&error))
}

fn fill(corpus: &Corpus, build: &Path) -> io::Result<()> {
    fs::create_dir_all(build.join("packages"))?;
    fs::write(build.join("script.bin"), corpus.script())?;
    let packages = corpus.packages();
    let rising = packages.windows(2).all(|two| two[0].id < two[1].id);
    let mut list = String::new();
    for (number, package) in (1..).zip(packages) {
        let id = package.id;
        let file = if rising {
            format!("packages/{id:016x}.bin")
        } else {
            format!("packages/{number:06}-{id:016x}.bin")
        };
        fs::write(build.join(&file), package.bytes)?;
        let _ = writeln!(list, "{id:016x}\t{file}");
    }
    if !rising {
        fs::write(build.join("packages.tsv"), list)?;
    }
    Ok(())
}
