//! Indices of objects: an export, a script object, an object of another package, or none. Two bits of kind, 62 of value.
use std::collections::HashMap;

use classreport::chain::script_index;
use classreport::{ImportedName, NULL};

use super::fields::{Fields, list, number, text, word};
use super::lists::Lists;
use super::read::imported_name;
use crate::document::{Kind, Value, Wrong};
use crate::json::quoted;
use crate::sheet::shown_id;

const SCRIPT: u64 = 1;
const IMPORT: u64 = 2;

/// The greatest number of an imported name in an index.
const MOST_NAMES: u64 = (1 << 30) - 1;

/// The index that a value says.
pub fn read(value: &Value, lists: &mut Lists) -> Result<u64, Wrong> {
    match &value.kind {
        Kind::Null => Ok(NULL),
        Kind::Object(fields) => match fields.first().map_or("", |field| &field.name) {
            "export" => Fields::of(value, &["export"])?
                .needed("export", |export| number(export, (SCRIPT << 62) - 1)),
            "script" => Fields::of(value, &["script"])?.needed("script", script),
            "import" => Fields::of(value, &["import"])?.needed("import", import),
            "package" | "hash" => object(&Fields::of(value, &["package", "hash"])?, lists),
            _ => Err(value.wrong("an index has the field export, script, import or package")),
        },
        Kind::Number(_) | Kind::Text(_) => word(value),
        _ => Err(value.instead_of("null, a number, \"0x…\" or an object")),
    }
}

/// A script object by its path, whose hash is its index, or by its index.
fn script(value: &Value) -> Result<u64, Wrong> {
    let path = text(value)?;
    if !path.starts_with("0x") {
        return Ok(script_index(path));
    }
    let index = word(value)?;
    let what = "is no index of a script object: the highest hexadecimal digit of 16 is 4 to 7";
    let sound = (index >> 62 == SCRIPT).then_some(index);
    sound.ok_or_else(|| value.wrong(format!("{path} {what}")))
}

/// The numbers of an imported name and of a hash.
fn import(value: &Value) -> Result<u64, Wrong> {
    let [name, hash] = list(value)? else {
        return Err(value.wrong("two numbers are needed: an imported name's and a hash's"));
    };
    let name = number(name, MOST_NAMES).map_err(|wrong| wrong.in_item(0))?;
    let hash = number(hash, u32::MAX.into()).map_err(|wrong| wrong.in_item(1))?;
    Ok(IMPORT << 62 | name << 32 | hash)
}

/// The object of another package that has this hash.
fn object(fields: &Fields, lists: &mut Lists) -> Result<u64, Wrong> {
    let package = fields.needed("package", imported_name)?;
    let hash = fields.needed("hash", word)?;
    let name = lists.imported.number(package);
    let hash = lists.hashes.number(hash);
    Ok(IMPORT << 62 | u64::from(name) << 32 | u64::from(hash))
}

/// Both that an import names, where each can stand for its number.
pub fn imported(index: u64, lists: &Lists) -> Option<(&ImportedName, u64)> {
    let name = (index >> 62 == IMPORT).then_some((index >> 32 & MOST_NAMES) as u32)?;
    Some((
        lists.imported.told(name)?,
        *lists.hashes.told(index as u32)?,
    ))
}

/// An index as it is printed: a script object by its path, where that is among these.
pub fn printed(index: u64, lists: &Lists, paths: &HashMap<u64, String>) -> String {
    if let Some((package, hash)) = imported(index, lists) {
        let (package, hash) = (printed_name(package), quoted(&shown_id(hash)));
        return format!("{{\"package\": {package}, \"hash\": {hash}}}");
    }
    match index >> 62 {
        0 => format!("{{\"export\": {index}}}"),
        SCRIPT => {
            // A path that starts like an index would be read as one.
            let path = paths.get(&index).filter(|path| !path.starts_with("0x"));
            let told = path.map_or_else(|| quoted(&shown_id(index)), |path| quoted(path));
            format!("{{\"script\": {told}}}")
        }
        IMPORT => {
            let (name, hash) = (index >> 32 & MOST_NAMES, index as u32);
            format!("{{\"import\": [{name}, {hash}]}}")
        }
        _ if index == NULL => "null".to_owned(),
        _ => quoted(&shown_id(index)),
    }
}

/// An imported name as it is printed.
pub fn printed_name(name: &ImportedName) -> String {
    let text = quoted(&name.text);
    match name.number {
        0 => text,
        number => format!("{{\"name\": {text}, \"number\": {number}}}"),
    }
}
