//! A JSON document (RFC 8259), each value with its place, so that what is wrong can be told by line and field.
mod parse;
mod strings;

use std::path::Path;

use crate::failure::Failure;

pub use parse::parse;

/// A value, and the byte where it starts.
#[derive(Debug)]
pub struct Value {
    pub at: usize,
    pub kind: Kind,
}

#[derive(Debug)]
pub enum Kind {
    Null,
    Flag,
    /// as it is written, so that no digit is lost
    Number(String),
    Text(String),
    List(Vec<Value>),
    Object(Vec<Field>),
}

/// A field of an object, and the byte where its name starts.
#[derive(Debug)]
pub struct Field {
    pub at: usize,
    pub name: String,
    pub value: Value,
}

impl Value {
    /// What it is, in words.
    pub fn words(&self) -> &'static str {
        match self.kind {
            Kind::Null => "null",
            Kind::Flag => "true or false",
            Kind::Number(_) => "a number",
            Kind::Text(_) => "a text",
            Kind::List(_) => "a list",
            Kind::Object(_) => "an object",
        }
    }

    pub fn wrong(&self, what: impl Into<String>) -> Wrong {
        Wrong::new(self.at, what)
    }

    /// Something else is needed here.
    pub fn instead_of(&self, needed: &str) -> Wrong {
        self.wrong(format!("{needed} is needed, not {}", self.words()))
    }
}

/// What is wrong with a document, and where: the byte, and the fields that lead there.
#[derive(Debug)]
pub struct Wrong {
    at: usize,
    path: String,
    what: String,
}

impl Wrong {
    pub fn new(at: usize, what: impl Into<String>) -> Wrong {
        Wrong {
            at,
            path: String::new(),
            what: what.into(),
        }
    }

    /// The same, in this field of an object.
    pub fn in_field(mut self, name: &str) -> Wrong {
        let inner = !self.path.is_empty() && !self.path.starts_with('[');
        let dot = if inner { "." } else { "" };
        self.path = format!("{name}{dot}{}", self.path);
        self
    }

    /// The same, in this item of a list, from 0.
    pub fn in_item(self, number: usize) -> Wrong {
        self.in_field(&format!("[{number}]"))
    }

    /// As it is told: with file, line, column and field.
    pub fn failure(self, file: &Path, document: &[u8]) -> Failure {
        let Wrong { at, path, what } = self;
        let message = if path.is_empty() {
            what
        } else {
            format!("{path}: {what}")
        };
        let (line, column) = place(&document[..at]);
        Failure::malformed(message).about(file).at(line, column)
    }
}

/// The line and the column, both from 1, behind these bytes. A column is a character.
fn place(before: &[u8]) -> (usize, usize) {
    let line = before.split(|byte| *byte == b'\n');
    let last = line.clone().next_back().unwrap_or_default();
    let starts = last.iter().filter(|byte| **byte & 0xc0 != 0x80);
    (line.count(), starts.count() + 1)
}
