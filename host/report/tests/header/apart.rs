//! Descriptions that differ give headers that differ.
use std::collections::HashMap;

use corpus::generate::description;
use corpus::name::rendered;
use corpus::{Description, Export};

use crate::asked::Asked;

/// Headers that were written, each with its description.
#[derive(Default)]
pub(crate) struct Apart {
    headers: HashMap<Vec<u8>, Vec<u8>>,
    /// descriptions that came again
    again: u64,
}

impl Apart {
    pub(crate) fn add(&mut self, description: &[u8], header: Vec<u8>) {
        let Some(before) = self.headers.insert(header, description.to_vec()) else {
            return;
        };
        assert!(
            before == description,
            "one header: {before:02x?}, {description:02x?}"
        );
        self.again += 1;
    }

    /// Tells how many there were, at least so many.
    pub(crate) fn all_of(&self, least: u64) {
        let (headers, again) = (self.headers.len(), self.again);
        println!("{headers} descriptions that differ, {again} that came again: {headers} headers");
        assert!(headers as u64 >= least);
    }
}

type Edit = Box<dyn Fn(&mut Description)>;

/// A bit of each number.
fn bits() -> Vec<Edit> {
    let mut out: Vec<Edit> = Vec::new();
    for bit in 0..32 {
        out.push(Box::new(move |d| d.name.1 ^= 1 << bit));
        out.push(Box::new(move |d| each_export(d, |e| e.number ^= 1 << bit)));
        out.push(Box::new(move |d| each_imported(d, |_, n| *n ^= 1 << bit)));
    }
    for bit in 0..64 {
        out.push(Box::new(move |d| {
            d.hashes.iter_mut().for_each(|h| *h ^= 1 << bit);
        }));
        out.push(Box::new(move |d| each_export(d, |e| e.outer ^= 1 << bit)));
        out.push(Box::new(move |d| each_export(d, |e| e.class ^= 1 << bit)));
        out.push(Box::new(move |d| {
            each_export(d, |e| e.super_index ^= 1 << bit);
        }));
        out.push(Box::new(move |d| each_export(d, |e| e.hash ^= 1 << bit)));
    }
    out
}

fn each_export(d: &mut Description, edit: impl Fn(&mut Export)) {
    d.exports.iter_mut().for_each(edit);
}

fn each_imported(d: &mut Description, edit: impl Fn(&mut String, &mut u32)) {
    d.imported
        .iter_mut()
        .for_each(|(text, number)| edit(text, number));
}

/// Texts that nothing has, that come twice, that are longer or wider; a name that is rendered as another is.
fn texts() -> Vec<Edit> {
    let own = |d: &Description| d.texts[d.name.0 as usize].clone();
    vec![
        Box::new(|d| d.texts.push(String::new())),
        Box::new(move |d| d.texts.push(own(d))),
        Box::new(move |d| {
            d.texts.push(own(d));
            d.name.0 = d.texts.len() as u32 - 1;
        }),
        Box::new(move |d| {
            d.texts.push(rendered(&own(d), d.name.1));
            d.name = (d.texts.len() as u32 - 1, 0);
        }),
        Box::new(|d| d.texts.iter_mut().for_each(|text| text.push('\0'))),
        Box::new(|d| d.texts.iter_mut().for_each(|text| text.push('Œ'))),
        Box::new(|d| d.texts.insert(0, "Œ".to_owned())),
        Box::new(|d| each_imported(d, |text, n| (*text, *n) = (rendered(text, *n), 0))),
        Box::new(|d| each_imported(d, |text, _| text.push('\0'))),
        Box::new(|d| d.imported.push((String::new(), 0))),
    ]
}

/// Lists in another order, and entries of nothing.
fn orders() -> Vec<Edit> {
    vec![
        Box::new(|d| d.texts.reverse()),
        Box::new(|d| d.exports.reverse()),
        Box::new(|d| d.hashes.reverse()),
        Box::new(|d| d.imported.reverse()),
        Box::new(|d| d.hashes.push(0)),
        Box::new(|d| d.hashes.extend([0; 9])),
        Box::new(|d| d.exports.push(NOTHING)),
    ]
}

/// An export of 72 bytes of which all are 0, as nine hashes are.
const NOTHING: Export = Export {
    name: 0,
    number: 0,
    outer: 0,
    class: 0,
    super_index: 0,
    hash: 0,
};

/// Each description with all that differs from it in one thing, and in some of them is rendered alike.
#[test]
fn near_ones_too() {
    let mut asked = Asked::new(5);
    let mut apart = Apart::default();
    let edits: Vec<Edit> = [bits(), texts(), orders()].into_iter().flatten().collect();
    for seed in 500_000..500_100 {
        let description = description(seed);
        for edit in &edits {
            let mut other = description.clone();
            edit(&mut other);
            let bytes = other.bytes();
            if let Some(header) = asked.ask(&bytes) {
                apart.add(&bytes, header);
            }
        }
    }
    apart.all_of(20_000);
}
