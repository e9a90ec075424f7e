//! `header`: the header that a description in JSON describes.
use std::path::Path;

use classreport::chain::id;
use classreport::{Description, Refusal};

use crate::args::Words;
use crate::document;
use crate::failure::Failure;
use crate::input::read;
use crate::output;
use crate::schema;
use crate::text::visible;

/// A name may have so many units.
const MOST_UNITS: usize = 32_767;

pub fn run(words: &Words) -> Result<u8, Failure> {
    let (file, document) = read(words, &words.operands[0])?;
    let description = document::parse(&document).and_then(|value| schema::description(&value));
    let description = description.map_err(|wrong| wrong.failure(&file, &document))?;
    let header = classreport::header(&description);
    let header = header.map_err(|refusal| refused(refusal, &description).about(&file))?;
    let folder = words.value("output").map(Path::new);
    match folder.filter(|folder| folder.is_dir()) {
        Some(folder) => into_folder(words, folder, &description, &header)?,
        None => output::write_bytes(words, &header)?,
    }
    Ok(0)
}

/// A refusal, with the name that is too long where that is the reason.
fn refused(refusal: Refusal, description: &Description) -> Failure {
    let failure = Failure::refused(refusal, None);
    let imported = description.imported.iter().map(|name| &name.text);
    let mut texts = description.texts.iter().chain(imported);
    let Some(long) = texts.find(|text| text.encode_utf16().count() > MOST_UNITS) else {
        return failure;
    };
    let (start, units) = (start(long), long.encode_utf16().count());
    failure.because(&format!(
        "the name '{start}…' has {units} units, and a name has at most {MOST_UNITS}"
    ))
}

/// So much of a name that it is known again.
fn start(name: &str) -> String {
    name.chars().take(32).collect()
}

/// Writes the header as a build's folder of packages wants it: called by its id.
fn into_folder(
    words: &Words,
    folder: &Path,
    description: &Description,
    header: &[u8],
) -> Result<(), Failure> {
    let name = description.full_name().unwrap_or_default();
    let file = folder.join(format!("{:016x}.bin", id(&name)));
    output::write_file(&file, header)?;
    if words.has("quiet") {
        return Ok(());
    }
    let (file, name, length) = (file.display().to_string(), visible(&name), header.len());
    let line = format!("{}: {name}, {length} bytes\n", visible(&file));
    output::write_text(&Words::default(), &line)
}
