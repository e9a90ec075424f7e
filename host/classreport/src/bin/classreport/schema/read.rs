//! From JSON to a description.
use classreport::{Description, Export, ImportedName, NULL, Name};

use super::fields::{Fields, small, text, word};
use super::index;
use super::lists::Lists;
use crate::document::{Kind, Value, Wrong};

/// The description that a document holds.
pub fn description(document: &Value) -> Result<Description, Wrong> {
    let known = ["package", "exports", "names", "hashes", "imported"];
    let fields = Fields::of(document, &known)?;
    let texts = fields.each("names", |value| text(value).map(str::to_owned))?;
    let hashes = fields.each("hashes", word)?;
    let imported = fields.each("imported", imported_name)?;
    let mut lists = Lists::of(texts, hashes, imported);
    let name = fields.needed("package", |value| own_name(value, &mut lists))?;
    let exports = fields.each("exports", |value| export(value, &mut lists))?;
    Ok(Description {
        name,
        texts: lists.texts.all,
        exports,
        hashes: lists.hashes.all,
        imported: lists.imported.all,
    })
}

/// The package's name: a text, or an object with `name` and `number`.
fn own_name(value: &Value, lists: &mut Lists) -> Result<Name, Wrong> {
    match &value.kind {
        Kind::Text(_) => Ok(Name {
            text: text_number(value, lists)?,
            number: 0,
        }),
        Kind::Object(_) => name_fields(&Fields::of(value, &["name", "number"])?, lists),
        _ => Err(value.instead_of("a text or an object")),
    }
}

fn name_fields(fields: &Fields, lists: &mut Lists) -> Result<Name, Wrong> {
    Ok(Name {
        text: fields.needed("name", |value| text_number(value, lists))?,
        number: fields.read("number", small)?.unwrap_or(0),
    })
}

/// A text's number: that of the text itself, or one in the list that was given, `names`.
fn text_number(value: &Value, lists: &mut Lists) -> Result<u32, Wrong> {
    match &value.kind {
        Kind::Text(text) => Ok(lists.texts.number(text.clone())),
        Kind::Number(_) => {
            let (number, given) = (small(value)?, lists.texts.given);
            let outside = || {
                value.wrong(format!(
                    "text {number} is not in `names`, which has {given}"
                ))
            };
            let inside = (number as usize) < given;
            inside.then_some(number).ok_or_else(outside)
        }
        _ => Err(value.instead_of("a text or its number in `names`")),
    }
}

fn export(value: &Value, lists: &mut Lists) -> Result<Export, Wrong> {
    let known = ["name", "number", "outer", "class", "super", "hash"];
    let fields = Fields::of(value, &known)?;
    let name = name_fields(&fields, lists)?;
    let mut object = |field| {
        let index = fields.read(field, |value| index::read(value, lists))?;
        Ok(index.unwrap_or(NULL))
    };
    Ok(Export {
        name,
        outer: object("outer")?,
        class: object("class")?,
        super_index: object("super")?,
        hash: fields.read("hash", word)?.unwrap_or(0),
    })
}

/// An imported name: a text, or an object with `name` and `number`.
pub fn imported_name(value: &Value) -> Result<ImportedName, Wrong> {
    let (text, number) = match &value.kind {
        Kind::Text(text) => (&**text, 0),
        Kind::Object(_) => {
            let fields = Fields::of(value, &["name", "number"])?;
            let number = fields.read("number", small)?;
            (fields.needed("name", text)?, number.unwrap_or(0))
        }
        _ => return Err(value.instead_of("a text or an object")),
    };
    Ok(ImportedName {
        text: text.to_owned(),
        number,
    })
}
