//! The fields of an object, and values as what is needed.
use crate::document::{Kind, Value, Wrong};

/// An object's fields.
pub struct Fields<'a> {
    object: &'a Value,
    given: Vec<(&'a str, &'a Value)>,
}

impl<'a> Fields<'a> {
    /// The fields of an object that may have these, each once.
    pub fn of(object: &'a Value, known: &[&str]) -> Result<Fields<'a>, Wrong> {
        let Kind::Object(all) = &object.kind else {
            return Err(object.instead_of("an object"));
        };
        let mut given: Vec<(&str, &Value)> = Vec::new();
        for field in all {
            let name = &*field.name;
            if !known.contains(&name) {
                let known = known.join(", ");
                let what = format!("there is no field '{name}' here, only {known}");
                return Err(Wrong::new(field.at, what));
            }
            if given.iter().any(|(other, _)| *other == name) {
                return Err(Wrong::new(field.at, "the field comes twice").in_field(name));
            }
            given.push((name, &field.value));
        }
        Ok(Fields { object, given })
    }

    pub fn value(&self, name: &str) -> Option<&'a Value> {
        let given = self.given.iter().find(|(other, _)| *other == name);
        given.map(|(_, value)| *value)
    }

    /// A field as what is needed, where it is there.
    pub fn read<T>(
        &self,
        name: &str,
        read: impl FnOnce(&'a Value) -> Result<T, Wrong>,
    ) -> Result<Option<T>, Wrong> {
        let found = self.value(name).map(read).transpose();
        found.map_err(|wrong| wrong.in_field(name))
    }

    /// The same, where it has to be there.
    pub fn needed<T>(
        &self,
        name: &str,
        read: impl FnOnce(&'a Value) -> Result<T, Wrong>,
    ) -> Result<T, Wrong> {
        let missing = || self.object.wrong(format!("the field '{name}' is missing"));
        self.read(name, read)?.ok_or_else(missing)
    }

    /// Each item of a list, which is empty where it isn't there.
    pub fn each<T>(
        &self,
        name: &str,
        mut read: impl FnMut(&'a Value) -> Result<T, Wrong>,
    ) -> Result<Vec<T>, Wrong> {
        let all = |value: &'a Value| {
            let items = list(value)?.iter().enumerate();
            let item = |(number, item)| read(item).map_err(|wrong| wrong.in_item(number));
            items.map(item).collect()
        };
        Ok(self.read(name, all)?.unwrap_or_default())
    }
}

pub fn list(value: &Value) -> Result<&[Value], Wrong> {
    match &value.kind {
        Kind::List(items) => Ok(items),
        _ => Err(value.instead_of("a list")),
    }
}

pub fn text(value: &Value) -> Result<&str, Wrong> {
    match &value.kind {
        Kind::Text(text) => Ok(text),
        _ => Err(value.instead_of("a text")),
    }
}

/// A whole number up to this.
pub fn number(value: &Value, most: u64) -> Result<u64, Wrong> {
    let Kind::Number(digits) = &value.kind else {
        return Err(value.instead_of("a number"));
    };
    if !digits.bytes().all(|byte| byte.is_ascii_digit()) {
        return Err(value.wrong(format!("{digits} is not a whole number from 0 to {most}")));
    }
    let number = digits.parse().ok().filter(|number| *number <= most);
    number.ok_or_else(|| value.wrong(format!("{digits} is more than {most}")))
}

/// A number of 32 bits.
pub fn small(value: &Value) -> Result<u32, Wrong> {
    number(value, u32::MAX.into()).map(|number| number as u32)
}

/// A number of 64 bits: as it is, or in hexadecimal digits as a text.
pub fn word(value: &Value) -> Result<u64, Wrong> {
    match &value.kind {
        Kind::Number(_) => number(value, u64::MAX),
        Kind::Text(text) => hexadecimal(text).ok_or_else(|| {
            let needed = "\"0x\" and 1 to 16 hexadecimal digits, or a number without quotes";
            value.wrong(format!("'{text}' is not {needed}"))
        }),
        _ => Err(value.instead_of("a number or \"0x…\"")),
    }
}

fn hexadecimal(text: &str) -> Option<u64> {
    let digits = text.strip_prefix("0x")?;
    let sound = digits.len() <= 16 && digits.bytes().all(|byte| byte.is_ascii_hexdigit());
    u64::from_str_radix(digits, 16).ok().filter(|_| sound)
}
