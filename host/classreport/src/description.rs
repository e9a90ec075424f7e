//! What describes a package header, and the house form that the call reads.
//!
//! Big-endian: 4-byte length of the rest, version byte 1, the package's name (text number and instance number, 4 bytes
//! each), then four lists, each after a 4-byte count: texts (4-byte length, UTF-8); exports (name likewise; outer, class,
//! super and public hash, 8 bytes each); public hashes; imported names (text, 4-byte number).
use crate::Refusal;
use crate::chain::rendered;

/// The null index as packages write it. Any index whose top two bits are set is null.
pub const NULL: u64 = u64::MAX;

/// A name: a text by its number, and the instance number, apart from it.
#[derive(Debug, Clone, Copy, Default, PartialEq, Eq, Hash)]
pub struct Name {
    /// The text's number in the list of texts, from 0.
    pub text: u32,
    /// The instance number: 0 for none, and N is shown as `_` and N - 1.
    pub number: u32,
}

/// An object of the package.
#[derive(Debug, Clone, Copy, PartialEq, Eq, Hash)]
pub struct Export {
    /// Its name.
    pub name: Name,
    /// The index of the object that it lies in.
    pub outer: u64,
    /// The index of its class.
    pub class: u64,
    /// The index of its super.
    pub super_index: u64,
    /// Its public hash; 0 for none.
    pub hash: u64,
}

/// The first text's, with null indices and no hash.
impl Default for Export {
    fn default() -> Export {
        Export {
            name: Name::default(),
            outer: NULL,
            class: NULL,
            super_index: NULL,
            hash: 0,
        }
    }
}

/// The name of a package whose objects are referred to.
#[derive(Debug, Clone, Default, PartialEq, Eq, Hash)]
pub struct ImportedName {
    /// Without the instance number.
    pub text: String,
    /// The instance number.
    pub number: u32,
}

/// A package header by what it says. Texts may repeat and need not be used.
///
/// ```
/// use classreport::{Description, Export, Name};
///
/// let tone = Description {
///     texts: vec!["/Game/Tone".to_owned(), "Tone_GEN_VARIABLE".to_owned()],
///     exports: vec![Export { name: Name { text: 1, number: 0 }, ..Export::default() }],
///     ..Description::default()
/// };
/// assert_eq!(tone.bytes().unwrap().len(), 29 + (4 + 10) + (4 + 17) + 40);
/// ```
#[derive(Debug, Clone, Default, PartialEq, Eq, Hash)]
pub struct Description {
    /// The package's own name.
    pub name: Name,
    /// The texts of its names and its exports' names.
    pub texts: Vec<String>,
    /// The exports, in order.
    pub exports: Vec<Export>,
    /// The public hashes that imports name by number.
    pub hashes: Vec<u64>,
    /// The imported names, which imports name by number.
    pub imported: Vec<ImportedName>,
}

impl Description {
    /// The description in house form.
    ///
    /// # Errors
    /// Refusal 27, where it is longer than its 4-byte length can tell: its header would be too long too.
    pub fn bytes(&self) -> Result<Vec<u8>, Refusal> {
        let size = self.size();
        let rest = u32::try_from(size - 4).map_err(|_| Refusal {
            question: 27,
            block: 0,
        })?;
        let mut out = Vec::with_capacity(size);
        put(&mut out, rest);
        out.push(1);
        put_name(&mut out, self.name);
        put(&mut out, self.texts.len() as u32);
        self.texts.iter().for_each(|text| put_text(&mut out, text));
        put(&mut out, self.exports.len() as u32);
        for export in &self.exports {
            put_export(&mut out, export);
        }
        put(&mut out, self.hashes.len() as u32);
        out.extend(self.hashes.iter().flat_map(|hash| hash.to_be_bytes()));
        put(&mut out, self.imported.len() as u32);
        for imported in &self.imported {
            put_text(&mut out, &imported.text);
            put(&mut out, imported.number);
        }
        Ok(out)
    }

    /// The package's name with its instance number, where its text is in the list.
    ///
    /// ```
    /// use classreport::{Description, Name};
    ///
    /// let name = Name { text: 0, number: 3 };
    /// let third = Description { name, texts: vec!["/Game/Tone".to_owned()], ..Description::default() };
    /// assert_eq!(third.full_name().as_deref(), Some("/Game/Tone_2"));
    /// ```
    pub fn full_name(&self) -> Option<String> {
        let text = self.texts.get(self.name.text as usize)?;
        Some(rendered(text, self.name.number))
    }

    /// How many bytes that has.
    fn size(&self) -> usize {
        let texts = self.texts.iter().map(|text| 4 + text.len());
        let imported = self.imported.iter().map(|name| 8 + name.text.len());
        let lists = 40 * self.exports.len() + 8 * self.hashes.len();
        29 + texts.sum::<usize>() + lists + imported.sum::<usize>()
    }
}

fn put(out: &mut Vec<u8>, number: u32) {
    out.extend(number.to_be_bytes());
}

fn put_text(out: &mut Vec<u8>, text: &str) {
    put(out, text.len() as u32);
    out.extend(text.as_bytes());
}

fn put_name(out: &mut Vec<u8>, name: Name) {
    put(out, name.text);
    put(out, name.number);
}

fn put_export(out: &mut Vec<u8>, export: &Export) {
    put_name(out, export.name);
    for word in [export.outer, export.class, export.super_index, export.hash] {
        out.extend(word.to_be_bytes());
    }
}
