//! `pack`, `unpack`, `report`, `check` and `example`: builds, corpora and reports as files.
use std::ffi::OsStr;
use std::io::Write;
use std::path::Path;

use classreport::{Corpus, Report};

use crate::args::Words;
use crate::example;
use crate::failure::Failure;
use crate::folder;
use crate::input::{named_source, source};
use crate::output::{self, Holds};
use crate::terminal::Look;
use crate::text::visible;

/// `pack BUILD`: the corpus of a build. Nothing in it is looked at.
pub fn pack(words: &Words) -> Result<u8, Failure> {
    let build = Path::new(&words.operands[0]);
    let packed = folder::pack(build, words.has("reverse"))?;
    output::write_bytes(words, &packed.bytes)?;
    Ok(0)
}

/// `unpack FILE -o BUILD`: the way back.
pub fn unpack(words: &Words) -> Result<u8, Failure> {
    let build = words.value("output").filter(|build| *build != "-");
    let build = build.ok_or_else(|| Failure::usage("name the folder to make with -o BUILD"))?;
    let source = source(words, 0)?;
    let corpus = Corpus::read(&source.bytes).map_err(|refusal| source.refused(refusal))?;
    folder::unpack(&corpus, Path::new(build))?;
    Ok(0)
}

/// `report INPUT`: the report's bytes, as the call wrote them.
pub fn report(words: &Words) -> Result<u8, Failure> {
    let source = source(words, 0)?;
    let report = source.report(words)?;
    output::write_bytes(words, report.bytes())?;
    Ok(0)
}

/// `check INPUT...`: a line each.
pub fn check(words: &Words) -> Result<u8, Failure> {
    let look = Look::of(words)?;
    let mut worst = 0;
    let body = |out: &mut dyn Write| {
        for name in &words.operands {
            let found = named_source(words, name).and_then(|source| source.report(words));
            worst = worst.max(found.as_ref().err().map_or(0, Failure::status));
            if let Some(line) = verdict(words, name, &found, look).filter(|_| !words.has("quiet")) {
                writeln!(out, "{line}")?;
                out.flush()?;
            }
        }
        Ok(())
    };
    output::write(words, Holds::Text, Box::new(body))?;
    Ok(worst)
}

/// The line for an input that is accepted or refused; any other failure is told as one.
fn verdict(
    words: &Words,
    name: &OsStr,
    found: &Result<Report, Failure>,
    look: Look,
) -> Option<String> {
    match found {
        Ok(report) => {
            let packages = report.sections().count();
            let rows = report
                .sections()
                .map(|section| u64::from(section.row_count));
            let (name, rows) = (visible(&name.to_string_lossy()), rows.sum::<u64>());
            Some(format!(
                "{name}: accepted: {packages} packages, {rows} rows"
            ))
        }
        Err(failure) if failure.status() != 1 => {
            crate::tell(words, failure);
            None
        }
        Err(failure) if crate::errors_are_json(words) => failure.told(true),
        Err(failure) => Some(look.warn(&failure.text())),
    }
}

/// `example BUILD`: a small build to try everything on.
pub fn example(words: &Words) -> Result<u8, Failure> {
    let build = &words.operands[0];
    let bytes = example::corpus();
    let corpus = Corpus::read(&bytes).map_err(|refusal| Failure::refused(refusal, None))?;
    folder::unpack(&corpus, Path::new(build))?;
    if !words.has("quiet") {
        let name = build.display();
        let packages = corpus.packages().len();
        let line =
            format!("{name}: a build of {packages} packages. Try: classreport show {name}\n");
        output::write_text(&Words::default(), &line)?;
    }
    Ok(0)
}
