//! The question that a message of the reference answers with no, told by the message's first words alone: what follows
//! them may quote text of the corpus.

/// The question's number, or None where the message is no answer to one of document 01's questions.
pub fn question(message: &str) -> Option<u8> {
    const STRUCTURES: [(&str, Words); 4] = [
        ("name batch at offset #: ", NAME_BATCH),
        ("script objects: ", SCRIPT_OBJECTS),
        ("package summary: ", PACKAGE_SUMMARY),
        ("imported package names: ", &[("need ", 3)]),
    ];
    if after(message, "name index ").is_some() {
        return Some(10);
    }
    let (rest, words) = STRUCTURES
        .iter()
        .find_map(|(structure, words)| Some((after(message, structure)?, words)))?;
    let (_, number) = words
        .iter()
        .find(|(first, _)| after(rest, first).is_some())?;
    Some(*number)
}

/// First words and the question; `#` stands for a number in decimal.
type Words = &'static [(&'static str, u8)];

const NAME_BATCH: Words = &[
    ("hash version ", 4),
    ("name # (", 5),
    ("name # is not valid UTF-16", 6),
    ("# of ", 7),
];

const SCRIPT_OBJECTS: Words = &[
    ("need ", 3),
    ("negative count ", 8),
    ("count ", 9),
    ("entry ", 11),
    ("global index ", 12),
    ("# bytes left after ", 13),
];

const PACKAGE_SUMMARY: Words = &[
    ("need ", 3),
    ("versioning info flag ", 14),
    ("header size ", 15),
    ("negative offset ", 16),
    ("imported public export hashes offset ", 17),
    ("import map offset ", 17),
    ("export map offset ", 17),
    ("export bundle entries offset ", 17),
    ("dependency bundle headers offset ", 17),
    ("dependency bundle entries offset ", 17),
    ("imported package names offset ", 17),
    ("negative bulk data map size ", 18),
    ("name map and bulk data map end at ", 19),
    ("public export hashes is ", 20),
    ("import map is ", 20),
    ("export map is ", 21),
    ("# bytes after the imported package names", 22),
];

/// What stands after the words, if the text starts with them.
fn after<'a>(text: &'a str, words: &str) -> Option<&'a str> {
    let Some((before, behind)) = words.split_once('#') else {
        return text.strip_prefix(words);
    };
    let number = text.strip_prefix(before)?;
    let rest = number.trim_start_matches(|digit: char| digit.is_ascii_digit());
    if rest.len() == number.len() {
        return None;
    }
    rest.strip_prefix(behind)
}
