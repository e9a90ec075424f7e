//! `describe`: what a header says, as `header` reads it.
use std::collections::HashMap;

use classreport::chain::{Described, LeftOut, described, script_paths};
use classreport::{CorpusBuilder, verify};

use crate::args::Words;
use crate::failure::Failure;
use crate::input::read;
use crate::output;
use crate::schema;

/// A script block without names and objects.
const NO_OBJECTS: [u8; 8] = [0; 8];

pub fn run(words: &Words) -> Result<u8, Failure> {
    let paths = paths(words)?;
    let (file, block) = read(words, &words.operands[0])?;
    accepted(&NO_OBJECTS, Some(&block)).map_err(|failure| failure.about(&file))?;
    let found = described(&block);
    let found = found.map_err(|differ| Failure::disagreement(&differ).about(&file))?;
    let Described {
        description,
        left_out,
    } = found;
    output::write_text(words, &schema::printed(&description, &paths))?;
    if left_out != LeftOut::default() {
        crate::tell(words, &Failure::left_out(in_words(&left_out)).about(&file));
    }
    Ok(0)
}

/// The paths of the script objects in the block that `--script` names.
fn paths(words: &Words) -> Result<HashMap<u64, String>, Failure> {
    let Some(file) = words.value("script") else {
        return Ok(HashMap::new());
    };
    let (file, script) = read(words, file)?;
    accepted(&script, None).map_err(|failure| failure.about(&file))?;
    script_paths(&script).map_err(|differ| Failure::disagreement(&differ).about(&file))
}

/// Whether the call takes these blocks, a script block and perhaps a header, in a build of their own.
fn accepted(script: &[u8], header: Option<&[u8]>) -> Result<(), Failure> {
    let too_long = |error: classreport::TooLong| Failure::malformed(error.to_string());
    let mut corpus = CorpusBuilder::new(script).map_err(too_long)?;
    if let Some(header) = header {
        corpus.add(0, header).map_err(too_long)?;
    }
    let answer = verify(&corpus.finish());
    answer.map(drop).map_err(Failure::refused_alone)
}

/// What a description has no place for.
fn in_words(left_out: &LeftOut) -> String {
    let values = "values that no description has (hashes of names, flags, sizes, templates, or wide text that fits Latin-1)";
    let parts = [
        counted(left_out.bulk, ["byte", "bytes"], "of bulk data"),
        counted(left_out.imports, ["index", "indices"], "of the import map"),
        counted(
            left_out.bundles,
            ["byte", "bytes"],
            "of bundles and dependencies",
        ),
        counted(left_out.behind, ["byte", "bytes"], "behind the header"),
        left_out.values.then(|| values.to_owned()),
    ];
    let parts: Vec<String> = parts.into_iter().flatten().collect();
    format!("left out: {}", parts.join("; "))
}

/// How many there are, where there are any.
fn counted(count: usize, [one, many]: [&str; 2], of_what: &str) -> Option<String> {
    let unit = if count == 1 { one } else { many };
    (count > 0).then(|| format!("{count} {unit} {of_what}"))
}
