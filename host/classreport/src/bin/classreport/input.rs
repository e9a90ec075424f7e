//! What a command reads: a build, a corpus or a report.
use std::ffi::{OsStr, OsString};
use std::io::{self, Read};
use std::path::{Path, PathBuf};

use classreport::chain::described;
use classreport::{Corpus, Limits, Refusal, Report, Verified};

use crate::args::Words;
use crate::example;
use crate::failure::Failure;
use crate::folder;
use crate::limits;
use crate::progress::Progress;

/// A corpus, and where it came from.
pub struct Source {
    pub name: PathBuf,
    pub bytes: Vec<u8>,
    /// of a build: the files of its blocks
    files: Vec<PathBuf>,
}

/// A report, with its corpus where that was given.
pub struct Subject {
    pub name: PathBuf,
    pub report: Report<'static>,
    /// of the call that made it here
    pub limits: Limits,
    pub source: Option<Source>,
}

impl Source {
    /// The report of the call, within the limits that were given.
    pub fn report(&self, words: &Words) -> Result<Report<'static>, Failure> {
        let limits = limits::limits(words)?;
        let _shown = self.progress(words);
        let report = classreport::report_within(&self.bytes, limits);
        report.map_err(|refusal| self.refused(refusal))
    }

    /// What the call finds about the hashes of its names.
    pub fn verified(&self, words: &Words) -> Result<Verified, Failure> {
        let _shown = self.progress(words);
        classreport::verify(&self.bytes).map_err(|refusal| self.refused(refusal))
    }

    fn progress(&self, words: &Words) -> Progress {
        let (name, size) = (self.name.display(), self.bytes.len() / 1_000_000);
        Progress::start(words, format!("{name}: the call reads {size} MB"))
    }

    /// A refusal, told with the file and the id of its package.
    pub fn refused(&self, refusal: Refusal) -> Failure {
        let package = refusal.package().map(|package| package as usize - 1);
        let corpus = Corpus::read(&self.bytes).ok();
        let packages = corpus.as_ref().map(Corpus::packages).unwrap_or_default();
        let id = package
            .and_then(|package| packages.get(package))
            .map(|package| package.id);
        let block = (refusal.block as usize).checked_sub(1);
        let file = block.and_then(|block| self.files.get(block));
        match (file, id) {
            (Some(file), id) => Failure::refused(refusal, id).about(file),
            (None, Some(id)) => Failure::refused_among(refusal, id).about(&self.name),
            (None, None) => Failure::refused(refusal, None).about(&self.name),
        }
    }
}

/// The input at a place; `None` is the example, which `--example` asks for in place of the first.
fn operand(words: &Words, place: usize) -> Result<Option<&OsStr>, Failure> {
    let Some(place) = place.checked_sub(usize::from(words.has("example"))) else {
        return Ok(None);
    };
    let operand = words.operands.get(place).map(OsString::as_os_str);
    let missing = || Failure::usage("an input is missing");
    operand.ok_or_else(missing).map(Some)
}

/// A build or a corpus.
pub fn source(words: &Words, place: usize) -> Result<Source, Failure> {
    match operand(words, place)? {
        None => Ok(example()),
        Some(operand) => named_source(words, operand),
    }
}

fn example() -> Source {
    Source {
        name: "the example".into(),
        bytes: example::corpus(),
        files: Vec::new(),
    }
}

/// A build or a corpus by its name; `-` is a corpus on standard input.
pub fn named_source(words: &Words, name: &OsStr) -> Result<Source, Failure> {
    let path = Path::new(name);
    if path.is_dir() {
        let _shown = Progress::start(words, format!("{}: reading the build", path.display()));
        let packed = folder::pack(path, false)?;
        return Ok(Source {
            name: path.to_owned(),
            bytes: packed.bytes,
            files: packed.files,
        });
    }
    let (name, bytes) = read(words, name)?;
    Ok(Source {
        name,
        bytes,
        files: Vec::new(),
    })
}

/// A file, or standard input.
pub fn read(words: &Words, name: &OsStr) -> Result<(PathBuf, Vec<u8>), Failure> {
    let path = Path::new(name);
    let _shown = Progress::start(words, format!("{}: reading", path.display()));
    if name != "-" {
        return Ok((path.to_owned(), folder::read(path)?));
    }
    let path = PathBuf::from("standard input");
    let mut bytes = Vec::new();
    let read = io::stdin().lock().read_to_end(&mut bytes);
    read.map_err(|error| Failure::files(&error).about(&path))?;
    Ok((path, bytes))
}

#[derive(Clone, Copy, PartialEq, Eq)]
enum As {
    Either,
    Corpus,
    Report,
}

/// What a command tells of: a report, or a corpus or build with the report that the call gives for it. Limits are for
/// that call, and a report has had its own.
pub fn subject(words: &Words, place: usize) -> Result<Subject, Failure> {
    let subject = either(words, place)?;
    if subject.source.is_none() && limits::given(words) {
        let made = "it is a report, and the limits are those of the call that made it";
        return Err(Failure::usage(made).about(&subject.name));
    }
    Ok(subject)
}

/// The same with any options.
pub fn either(words: &Words, place: usize) -> Result<Subject, Failure> {
    let choices = [
        ("either", As::Either),
        ("corpus", As::Corpus),
        ("report", As::Report),
    ];
    let wanted = words.choice("as", &choices)?;
    let name = operand(words, place)?;
    let file = name.filter(|name| !Path::new(name).is_dir());
    let Some(file) = file.filter(|_| wanted != As::Corpus) else {
        return of_source(words, source(words, place)?);
    };
    let (name, bytes) = read(words, file)?;
    let is_report = match wanted {
        As::Either => looks_like_report(&bytes).map_err(|wrong| wrong.about(&name))?,
        _ => true,
    };
    if !is_report {
        let files = Vec::new();
        return of_source(words, Source { name, bytes, files });
    }
    let report = Report::from_vec(bytes);
    let report = report.map_err(|wrong| Failure::malformed(wrong.to_string()).about(&name))?;
    Ok(Subject {
        name,
        report,
        limits: limits::limits(words)?,
        source: None,
    })
}

fn of_source(words: &Words, source: Source) -> Result<Subject, Failure> {
    Ok(Subject {
        name: source.name.clone(),
        report: source.report(words)?,
        limits: limits::limits(words)?,
        source: Some(source),
    })
}

/// Whether a file is a report; if not it is a corpus. Both start alike, so all of it is looked at.
fn looks_like_report(bytes: &[u8]) -> Result<bool, Failure> {
    match (Report::parse(bytes), Corpus::read(bytes)) {
        (Ok(_), Err(_)) => Ok(true),
        (Err(_), Ok(_)) => Ok(false),
        (Ok(_), Ok(_)) => Err(Failure::usage(
            "it can be read as a report and as a corpus: say which with --as report or --as corpus",
        )),
        _ if described(bytes).is_ok() => Err(Failure::malformed(
            "it is a package header: `classreport describe` shows it",
        )),
        (Err(malformed), Err(refusal)) => Err(Failure::malformed(format!(
            "it is neither a report ({malformed}) nor a corpus ({refusal})"
        ))),
    }
}
