//! The questions that are asked, 29 before all others; the first that fails is the refusal. 23 is retired; 27 and 28 are
//! asked of headers that are to be written, and no others are then.

/// A question, and what it means to fail it.
#[derive(Debug, Clone, Copy, PartialEq, Eq)]
pub struct Question {
    /// 1 to 22, 24 to 29.
    pub number: u8,
    /// What is wrong where the answer is no, in a few words.
    pub failed: &'static str,
    /// The question in full.
    pub asked: &'static str,
    /// What is usually behind it, and what to do.
    pub cause: &'static str,
}

impl Question {
    /// The question with this number.
    ///
    /// ```
    /// let question = classreport::Question::numbered(2).unwrap();
    /// assert_eq!(question.failed, "the corpus has a version other than 1");
    /// assert!([0, 23, 30].iter().all(|none| classreport::Question::numbered(*none).is_none()));
    /// ```
    pub fn numbered(number: u8) -> Option<&'static Question> {
        QUESTIONS.iter().find(|question| question.number == number)
    }
}

const fn question(
    number: u8,
    failed: &'static str,
    asked: &'static str,
    cause: &'static str,
) -> Question {
    Question {
        number,
        failed,
        asked,
        cause,
    }
}

/// All questions, in the order of their numbers.
pub const QUESTIONS: [Question; 28] = [
    question(
        1,
        "the corpus's lengths do not fit its bytes",
        "Does the corpus's length equal 4 plus its first length, with at least the version byte? Does every further part \
         lie inside, and the last end with the corpus?",
        "The file was cut short while it was copied, something was added to it, or it is no corpus. Pack the build again.",
    ),
    question(
        2,
        "the corpus has a version other than 1",
        "Is the corpus's version 1?",
        "The file was written for another version of this call, or it is no corpus.",
    ),
    question(
        3,
        "a field's bytes are not there",
        "Are the bytes of each field there, as it is read? In a package, once its header size is known, that means within \
         the header size.",
        "A header cut short: the loader took out fewer bytes than the header has. Or a count or length before it is wrong.",
    ),
    question(
        4,
        "a name batch has another hash version than 0xC1640000",
        "Is the hash version of each name batch 0xC1640000?",
        "The build was cooked by another engine version, or the block does not start where the loader thinks it does.",
    ),
    question(
        5,
        "a name reaches past its batch's strings",
        "Does each name lie within the strings of its batch?",
        "The name batch is damaged: a length among its headers, or the length of its strings.",
    ),
    question(
        6,
        "a name is not valid UTF-16",
        "Is each wide name valid UTF-16?",
        "The name batch is damaged: half of a surrogate pair is missing, or one-byte text is marked as wide.",
    ),
    question(
        7,
        "strings are left behind a batch's last name",
        "Are the strings of each name batch used up by its names?",
        "The name batch is damaged: a length among its headers, or the length of its strings.",
    ),
    question(
        8,
        "the count of script objects is negative",
        "Is the count of script objects not negative?",
        "The script block is damaged, or it is not the script block.",
    ),
    question(
        9,
        "the script block is shorter than its objects",
        "Are 32 bytes left for each script object?",
        "The script block was cut short, or its count is wrong.",
    ),
    question(
        10,
        "a name index is outside its name batch",
        "Is each name index (of a script object, an export, the package itself) in the name batch?",
        "The block is damaged, or its name batch belongs to another build.",
    ),
    question(
        11,
        "a script object's global index is not of the kind of script objects",
        "Has each script object's global index kind 1?",
        "The script block is damaged, or it is of another engine version.",
    ),
    question(
        12,
        "a script object's global index comes twice",
        "Is each script object's global index new?",
        "Two script blocks were joined, or one is damaged.",
    ),
    question(
        13,
        "bytes are left behind the last script object",
        "Is nothing left behind the last script object?",
        "Something was added to the script block, or its count is wrong.",
    ),
    question(
        14,
        "the versioning flag is not 0",
        "Is the package's versioning flag 0?",
        "The package was cooked with version information, or the block is not a package header.",
    ),
    question(
        15,
        "the header size is larger than the block",
        "Does the header size lie within the block?",
        "A header cut short: the loader took out fewer bytes than the header has.",
    ),
    question(
        16,
        "an offset is negative",
        "Is each of the seven offsets in the summary not negative?",
        "The summary is damaged, or the package is of another engine version.",
    ),
    question(
        17,
        "an offset is below its predecessor or past the header size",
        "Is each offset at least its predecessor (the first: 52) and at most the header size?",
        "The summary is damaged, or the package is of another engine version.",
    ),
    question(
        18,
        "the bulk size is negative",
        "Is the bulk size not negative?",
        "The name batch before it is damaged, or the package is of another engine version.",
    ),
    question(
        19,
        "the bulk bytes do not end where the public hashes start",
        "Do the bulk bytes end where the public hashes start?",
        "The summary or the name batch is damaged, or the package is of another engine version.",
    ),
    question(
        20,
        "the public hashes or the import map are no multiple of 8 bytes",
        "Are the public hashes a multiple of 8 bytes long, and then the import map?",
        "An offset in the summary is damaged, or the package is of another engine version.",
    ),
    question(
        21,
        "the export map is no multiple of 72 bytes",
        "Is the export map a multiple of 72 bytes long?",
        "An offset in the summary is damaged, or the package is of another engine version.",
    ),
    question(
        22,
        "bytes are left behind the imported names",
        "Is nothing left behind the imported names?",
        "The header size is damaged, or the package is of another engine version.",
    ),
    question(
        24,
        "a class key comes twice",
        "Does no class key (package id and public hash) come twice?",
        "A package is in the build twice, say as it was and as it was patched. Leave one of them out.",
    ),
    question(
        25,
        "the work buffer is too short",
        "Has the work buffer at least 64 bytes for each script object, class and candidate?",
        "The program that made the call lent too short a work buffer. Twice the corpus's length is always enough.",
    ),
    question(
        26,
        "the report is too long",
        "Is the report at most 4,294,967,299 bytes long, and within its buffer?",
        "The program that made the call lent too short a report buffer. Where it lent 4,294,967,299 bytes, the build is too \
         large for one report: split it.",
    ),
    question(
        27,
        "the description is malformed, or its header can't be written",
        "Is the description in house form, with nothing left over, version 1 and texts in UTF-8? Is each text number in the \
         list of texts? Has no name more than 32,767 units, and the header at most 2,147,483,647 bytes?",
        "The program that made the call wrote the description otherwise. Where it is right, a name is too long or the package \
         is too large.",
    ),
    question(
        28,
        "the header buffer is too short",
        "Is the header within its buffer?",
        "The program that made the call lent too short a header buffer. Three times the description's length is always enough.",
    ),
    question(
        29,
        "a limit is out of its range",
        "Is the lookup limit 1 to 64, and the object limit 1 to 65? It is asked before the corpus is looked at.",
        "The program that made the call gave it a limit of 0, or more than 64 lookups or 65 objects.",
    ),
];
