//! What was asked of the call and of the model, answered by both, and read back by the reference.
use std::collections::BTreeMap;

use answer::Answer;
use corpus::generate::Random;
use corpus::name::rendered;
use corpus::{Description, Export};
use oracle::header::{ReadBack, read_back};
use oracle::zen::ExportEntry;

use crate::both::told;
use crate::buffer::Buffer;

/// Lengths of the header's buffer, of a description whose header has so many bytes.
fn rooms(length: usize, more: usize) -> [(&'static str, usize); 5] {
    [
        ("0", 0),
        ("the length less 1", length - 1),
        ("the length", length),
        ("the length plus 1", length + 1),
        ("ample", length + 2 + more),
    ]
}

/// Asks, compares and counts.
pub(crate) struct Asked {
    random: Random,
    description: Buffer,
    header: Buffer,
    pub(crate) descriptions: u64,
    pub(crate) calls: u64,
    /// answers by refusal, at 0 the accepted
    answers: BTreeMap<u8, u64>,
    /// how often each length of the buffer was asked of a description that can be written
    rooms: BTreeMap<&'static str, u64>,
}

impl Asked {
    pub(crate) fn new(seed: u64) -> Asked {
        Asked {
            random: Random(seed),
            description: Buffer::default(),
            header: Buffer::default(),
            descriptions: 0,
            calls: 0,
            answers: BTreeMap::new(),
            rooms: BTreeMap::new(),
        }
    }

    /// The call's answer, twice in a row with the same buffers: the second time the header's holds the header.
    pub(crate) fn call(&mut self, description: &[u8], room: usize) -> Answer {
        self.description.lay_input(description, &mut self.random);
        self.header.lay_output(room, &mut self.random);
        let number = self.call_once(description);
        let answer = self.header.answer(number);
        let before = self.header.lent().to_vec();
        let again = self.call_once(description);
        assert_eq!(again, number, "the number the second time");
        assert!(before == self.header.lent(), "the header the second time");
        *self.answers.entry(refusal(&answer)).or_default() += 1;
        answer
    }

    fn call_once(&mut self, description: &[u8]) -> u64 {
        self.calls += 1;
        let number = report::class_header(self.description.lent(), self.header.lent());
        let intact = [&self.description, &self.header].map(Buffer::intact);
        assert_eq!(intact, [true; 2], "around description and header");
        let unchanged = self.description.lent() == description;
        assert!(unchanged, "the description was written to");
        number
    }

    /// The call's answer, which has to be the one that is expected.
    fn same(&mut self, description: &[u8], room: usize, expected: &Answer) {
        let given = self.call(description, room);
        assert!(
            given == *expected,
            "call {}, model {}; room {room}, description {}",
            told(&given),
            told(expected),
            shown(description)
        );
    }

    /// Call and model about another description, with buffers of many lengths; the header where it can be written.
    pub(crate) fn ask(&mut self, description: &[u8]) -> Option<Vec<u8>> {
        self.descriptions += 1;
        let answer = model::class_header(description, u64::MAX);
        let Ok(header) = answer else {
            self.refused(description, &answer);
            return None;
        };
        let judged = self.random.below(5) as usize;
        let lengths = rooms(header.len(), self.random.below(300) as usize);
        for (i, (name, room)) in lengths.into_iter().enumerate() {
            let fits = room >= header.len();
            let expected = if fits {
                Ok(header.clone())
            } else {
                Err((28, 0))
            };
            self.same(description, room, &expected);
            *self.rooms.entry(name).or_default() += 1;
            if i == judged {
                assert!(model::class_header(description, room as u64) == expected);
            }
        }
        reads_back(description, &header);
        Some(header)
    }

    /// 27, whatever the buffer: it is asked before 28.
    fn refused(&mut self, description: &[u8], answer: &Answer) {
        assert_eq!(*answer, Err((27, 0)), "{}", shown(description));
        let any = self.random.below(300) as usize;
        for room in [0, 1, any, 4 * description.len() + 100] {
            self.same(description, room, answer);
        }
    }

    /// Tells what was asked and answered: at least so many descriptions, and all that there is to ask and to answer.
    pub(crate) fn all_of(&self, least: u64, answers: &[u8]) {
        let (descriptions, calls) = (self.descriptions, self.calls);
        println!(
            "{descriptions} descriptions, {calls} calls; accepted (0) and refused: {:?}",
            self.answers
        );
        println!(
            "of those that can be written, by the buffer's length: {:?}",
            self.rooms
        );
        assert!(
            self.answers.keys().eq(answers),
            "answers: {:?}",
            self.answers
        );
        assert_eq!(self.rooms.len(), rooms(1, 0).len());
        let starts = self.description.missing().chain(self.header.missing());
        assert_eq!(starts.collect::<Vec<_>>(), Vec::<String>::new());
        assert!(descriptions >= least);
    }
}

fn refusal(answer: &Answer) -> u8 {
    answer.as_ref().err().map_or(0, |(refusal, _)| *refusal)
}

/// The reference reads from a header the description that went in; and the corpora's own writer makes the same header of it.
fn reads_back(description: &[u8], header: &[u8]) {
    let read = read_back(header).unwrap_or_else(|error| panic!("{error}: {}", shown(description)));
    let found = described(&read);
    assert!(
        found.bytes() == description,
        "{found:?}, {}",
        shown(description)
    );
    assert!(found.header() == header, "{found:?}");
    let name = &found.texts[found.name.0 as usize];
    assert_eq!(read.header.name, rendered(name, found.name.1));
    let imported = found.imported.iter().map(|(base, n)| rendered(base, *n));
    assert!(imported.eq(read.header.imported_package_names));
}

/// What the reference read, described.
fn described(read: &ReadBack) -> Description {
    let export = |e: &ExportEntry| Export {
        name: e.object_name.index,
        number: e.object_name.number,
        outer: e.outer_index,
        class: e.class_index,
        super_index: e.super_index,
        hash: e.public_export_hash,
    };
    Description {
        name: (read.name.index, read.name.number),
        texts: read.header.names.clone(),
        exports: read.header.exports.iter().map(export).collect(),
        hashes: read.header.imported_public_export_hashes.clone(),
        imported: read.imported.clone(),
    }
}

/// A description as a failing test prints it.
fn shown(description: &[u8]) -> String {
    if description.len() > 10_000 {
        return format!("of {} bytes", description.len());
    }
    format!("{description:02x?}")
}
