//! Faults of a description, each an edit of one that can be written. Question 27 is what all of them fail.
use super::utf8::{ILL_FORMED, around};
use crate::draft::DescriptionDraft;
use crate::generate::{LONGEST_NAME, Random, filled};
use crate::{Description, Export};

type Edit = Box<dyn Fn(&mut DescriptionDraft)>;

/// An edit after which nothing is described.
pub struct Malformed {
    pub name: String,
    edit: Edit,
}

impl Malformed {
    fn new(name: impl Into<String>, edit: impl Fn(&mut DescriptionDraft) + 'static) -> Malformed {
        Malformed {
            name: name.into(),
            edit: Box::new(edit),
        }
    }

    pub fn apply(&self, draft: &mut DescriptionDraft) {
        (self.edit)(draft);
    }
}

/// A description that can be written and has all that a fault wants to edit: several of each list, no text empty, and no
/// two of the numbers such that one could be taken for another.
pub fn sound_description(seed: u64) -> Description {
    let mut random = Random(seed ^ 0xde5c);
    let mut export = |name| Export {
        name,
        number: 0x51_0000 + random.below(9) as u32,
        outer: random.next() | 1 << 60,
        class: random.next() | 1 << 60,
        super_index: random.next() | 1 << 60,
        hash: random.next() | 1 << 60,
    };
    let exports = [0, 2, 1].map(&mut export);
    Description {
        name: (1, 0x52_0000),
        texts: ["Tone", "Pö", "音🎧é"].map(str::to_owned).into(),
        exports: exports.into(),
        hashes: vec![random.next() | 1 << 60, random.next() | 1 << 60],
        imported: vec![
            ("/Game/Booth".to_owned(), 0x53_0000),
            ("/Game/Œuvre🎯".to_owned(), 0x54_0000),
        ],
    }
}

/// Every fault of a description made by `sound_description`.
pub fn malformed(draft: &DescriptionDraft) -> Vec<Malformed> {
    let mut out = of_frame(draft);
    out.extend(cut_short(draft));
    out.extend(of_counts(draft));
    out.extend(of_names(draft));
    let texts = draft.texts.len() + draft.imported.len();
    for i in 0..texts {
        out.extend(of_length(i));
        out.extend(of_utf8(i));
        out.extend(too_long(i));
    }
    out.push(no_names());
    out
}

/// Without names the package's own is outside the list. Behind all others, whose edits want names.
fn no_names() -> Malformed {
    Malformed::new("no names", |d| {
        (d.texts, d.exports) = (Vec::new(), Vec::new());
        d.name.0 = 0;
    })
}

/// Length and version, and bytes left over, whatever the length says.
fn of_frame(draft: &DescriptionDraft) -> Vec<Malformed> {
    let length = draft.bytes().len() as u32 - 4;
    let lengths = [0, 1, length - 1, length + 1, length + 4, u32::MAX];
    let told = |n: u32| Malformed::new(format!("length {n}"), move |d| d.length = Some(n));
    let version = |v: u8| Malformed::new(format!("version {v}"), move |d| d.version = v);
    let mut out: Vec<Malformed> = lengths.map(told).into();
    out.extend([0, 2, 129, 255].map(version));
    for n in [1, 2, 4, 8, 40] {
        for told in [None, Some(length)] {
            let name = format!("{n} bytes left over, length told {told:?}");
            out.push(Malformed::new(name, move |d| {
                (d.tail, d.length) = (vec![0; n], told);
            }));
        }
    }
    out
}

/// Cut at every place, with its own length and with the length it had.
fn cut_short(draft: &DescriptionDraft) -> Vec<Malformed> {
    let whole = draft.bytes().len();
    let cut = |n: usize, told: Option<u32>| {
        let name = format!("cut to {n} bytes, length told {told:?}");
        Malformed::new(name, move |d| (d.cut, d.length) = (Some(n), told))
    };
    let of = |n| [cut(n, None), cut(n, Some(whole as u32 - 4))];
    (0..whole).flat_map(of).collect()
}

/// Counts of other entries than there are; some whose products with an entry's bytes, 4, 8 or 40, are near 2 to the 32nd
/// or 64th.
fn of_counts(draft: &DescriptionDraft) -> Vec<Malformed> {
    let mut out = Vec::new();
    for (list, n) in draft.lengths().into_iter().enumerate() {
        let whole = 1_u64 << 32;
        let products = [4, 8, 10, 40, 72].map(|bytes| (whole / bytes) as u32);
        let near = products.into_iter().flat_map(|n| [n - 1, n, n + 1, n + 2]);
        let few = [n - 1, n + 1, 1 << 31, u32::MAX - 1, u32::MAX];
        for told in few.into_iter().chain(near) {
            let name = format!("list {list} of {told}");
            out.push(Malformed::new(name, move |d| d.counts[list] = Some(told)));
        }
    }
    out
}

/// Text numbers outside the list, of the package and of each export.
fn of_names(draft: &DescriptionDraft) -> Vec<Malformed> {
    let count = draft.texts.len() as u32;
    let mut out = Vec::new();
    // A mapped name's top bits are passed over; here they are not.
    for wrong in [count, count + 1, 1 << 30, 1 << 31, u32::MAX] {
        let name = format!("package by name {wrong}");
        out.push(Malformed::new(name, move |d| d.name.0 = wrong));
        for i in 0..draft.exports.len() {
            let name = format!("export {i} by name {wrong}");
            out.push(Malformed::new(name, move |d| d.exports[i].name = wrong));
        }
    }
    out
}

/// A text's length.
fn of_length(i: usize) -> Vec<Malformed> {
    let told = |name: &str, length: fn(u32) -> u32| {
        Malformed::new(format!("text {i}: {name}"), move |d| {
            let text = d.text(i);
            text.length = Some(length(text.bytes.len() as u32));
        })
    };
    vec![
        told("length 0", |_| 0),
        told("length one less", |n| n - 1),
        told("length one more", |n| n + 1),
        told("length of half the bits", |_| 1 << 31),
        told("length of almost all bits", |_| u32::MAX - 3),
        told("length of all bits", |_| u32::MAX),
    ]
}

/// Ill-formed bytes alone, at both ends and in the middle of sound text.
fn of_utf8(i: usize) -> Vec<Malformed> {
    let mut out = Vec::new();
    for (name, bytes) in ILL_FORMED {
        for (place, text) in around(bytes) {
            let name = format!("text {i}: {name}, {place}");
            out.push(Malformed::new(name, move |d| {
                d.text(i).bytes.clone_from(&text);
            }));
        }
    }
    out
}

/// A unit more than a name can have.
fn too_long(i: usize) -> Vec<Malformed> {
    let of = |word: &'static str| {
        Malformed::new(format!("text {i}: 32,768 units of {word}"), move |d| {
            d.text(i).bytes = filled(word, LONGEST_NAME + 1).into();
        })
    };
    ["a", "é", "Œ", "aŒ", "🎯", "🎯é", "a🎯"].map(of).into()
}
