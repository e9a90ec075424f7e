//! From a description to JSON, which gives the same description when it is read.
use std::collections::HashMap;

use classreport::{Description, Export, NULL, Name};

use super::index;
use super::lists::Lists;
use crate::json::quoted;
use crate::sheet::shown_id;

/// The description as a document, with these paths of script objects. A list is left out where it is made again when the
/// document is read.
pub fn printed(description: &Description, paths: &HashMap<u64, String>) -> String {
    let Description {
        texts,
        hashes,
        imported,
        ..
    } = description;
    let lists = Lists::of(texts.clone(), hashes.clone(), imported.clone());
    let made = made(description, &lists);
    let mut fields = vec![format!(
        "\"package\": {}",
        own_name(description.name, &lists)
    )];
    let mut add = |name: &str, items: Vec<String>| fields.push(list(name, &items));
    if !description.exports.is_empty() {
        let exports = description.exports.iter();
        add(
            "exports",
            exports.map(|one| export(one, &lists, paths)).collect(),
        );
    }
    if made.texts.all != *texts {
        add("names", texts.iter().map(|text| quoted(text)).collect());
    }
    if made.hashes.all != *hashes {
        let hash = |hash: &u64| quoted(&shown_id(*hash));
        add("hashes", hashes.iter().map(hash).collect());
    }
    if made.imported.all != *imported {
        add(
            "imported",
            imported.iter().map(index::printed_name).collect(),
        );
    }
    format!("{{\n  {}\n}}\n", fields.join(",\n  "))
}

/// The lists as they are made of what is used, where none is printed.
fn made(description: &Description, lists: &Lists) -> Lists {
    let mut made = Lists::of(Vec::new(), Vec::new(), Vec::new());
    let mut use_text = |name: Name| {
        if let Some(text) = lists.texts.told(name.text) {
            made.texts.number(text.clone());
        }
    };
    use_text(description.name);
    for export in &description.exports {
        use_text(export.name);
        for index in [export.outer, export.class, export.super_index] {
            if let Some((name, hash)) = index::imported(index, lists) {
                made.imported.number(name.clone());
                made.hashes.number(hash);
            }
        }
    }
    made
}

/// A field that is a list, with a line for each item.
fn list(name: &str, items: &[String]) -> String {
    match items {
        [] => format!("\"{name}\": []"),
        _ => format!("\"{name}\": [\n    {}\n  ]", items.join(",\n    ")),
    }
}

/// A text, or its number where another of the same text stands before it.
fn text(name: Name, lists: &Lists) -> String {
    let told = lists.texts.told(name.text).map(|text| quoted(text));
    told.unwrap_or(name.text.to_string())
}

fn own_name(name: Name, lists: &Lists) -> String {
    let told = lists.texts.told(name.text).filter(|_| name.number == 0);
    told.map_or_else(
        || format!("{{{}}}", named(name, lists).join(", ")),
        |text| quoted(text),
    )
}

/// The fields of a name.
fn named(name: Name, lists: &Lists) -> Vec<String> {
    let mut fields = vec![format!("\"name\": {}", text(name, lists))];
    if name.number != 0 {
        fields.push(format!("\"number\": {}", name.number));
    }
    fields
}

fn export(export: &Export, lists: &Lists, paths: &HashMap<u64, String>) -> String {
    let mut fields = named(export.name, lists);
    let indices = [
        ("outer", export.outer),
        ("class", export.class),
        ("super", export.super_index),
    ];
    for (name, index) in indices.into_iter().filter(|(_, index)| *index != NULL) {
        let index = index::printed(index, lists, paths);
        fields.push(format!("\"{name}\": {index}"));
    }
    if export.hash != 0 {
        fields.push(format!("\"hash\": {}", quoted(&shown_id(export.hash))));
    }
    format!("{{{}}}", fields.join(", "))
}
