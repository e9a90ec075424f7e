//! Features of names as they are written.
use super::Census;
use crate::decode::{Batch, Corpus};

pub fn count(census: &mut Census, corpus: &Corpus) {
    of_batch(census, &corpus.script.batch);
    for package in &corpus.packages {
        of_batch(census, &package.batch);
        of_batch(census, &package.imported);
    }
}

fn of_batch(census: &mut Census, batch: &Batch) {
    census.note("empty batch", batch.names.is_empty());
    for name in &batch.names {
        let text = name.text.as_str();
        let above = text.chars().any(|c| c as u32 > 0x7f);
        let pair = text.chars().any(|c| c as u32 > 0xffff);
        census.note("Latin-1 above 0x7F", !name.wide && above);
        census.note("UTF-16", name.wide);
        census.note("UTF-16 with a surrogate pair", name.wide && pair);
        census.note(
            "UTF-16 at an odd offset in the strings",
            name.wide && name.offset % 2 == 1,
        );
        census.note(
            "UTF-16 at an odd offset in the corpus",
            name.wide && name.at % 2 == 1,
        );
        census.note("name of no characters", text.is_empty());
        census.note("name with a dot", text.contains('.'));
        census.note("name with a colon", text.contains(':'));
        census.note("name that is a question mark", text == "?");
    }
}
