use crate::{Description, Export};

/// A description in house form. An absent length or count is written as it is.
#[derive(Debug, Clone, Default)]
pub struct DescriptionDraft {
    pub length: Option<u32>,
    pub version: u8,
    pub name: (u32, u32),
    /// of texts, exports, hashes and imported names
    pub counts: [Option<u32>; 4],
    pub texts: Vec<TextDraft>,
    pub exports: Vec<Export>,
    pub hashes: Vec<u64>,
    pub imported: Vec<(TextDraft, u32)>,
    pub tail: Vec<u8>,
    /// the description's length where it is cut short
    pub cut: Option<usize>,
}

/// A text, UTF-8 or not.
#[derive(Debug, Clone, Default)]
pub struct TextDraft {
    pub length: Option<u32>,
    pub bytes: Vec<u8>,
}

impl TextDraft {
    pub fn of(text: &str) -> TextDraft {
        TextDraft {
            length: None,
            bytes: text.into(),
        }
    }

    fn write(&self, out: &mut Vec<u8>) {
        let length = self.length.unwrap_or(self.bytes.len() as u32);
        out.extend(length.to_be_bytes());
        out.extend(&self.bytes);
    }
}

impl DescriptionDraft {
    pub fn of(d: &Description) -> DescriptionDraft {
        let imported = d.imported.iter();
        DescriptionDraft {
            version: 1,
            name: d.name,
            texts: d.texts.iter().map(|text| TextDraft::of(text)).collect(),
            exports: d.exports.clone(),
            hashes: d.hashes.clone(),
            imported: imported
                .map(|(text, number)| (TextDraft::of(text), *number))
                .collect(),
            ..DescriptionDraft::default()
        }
    }

    /// How many entries each list has.
    pub fn lengths(&self) -> [u32; 4] {
        let lengths = [
            self.texts.len(),
            self.exports.len(),
            self.hashes.len(),
            self.imported.len(),
        ];
        lengths.map(|n| n as u32)
    }

    /// Text i of the names and then of the imported names.
    pub fn text(&mut self, i: usize) -> &mut TextDraft {
        let imported = self.imported.iter_mut().map(|(text, _)| text);
        let mut all = self.texts.iter_mut().chain(imported);
        all.nth(i).expect("a text")
    }

    fn write_lists(&self, out: &mut Vec<u8>) {
        let counts: [u32; 4] = std::array::from_fn(|i| self.counts[i].unwrap_or(self.lengths()[i]));
        out.extend(counts[0].to_be_bytes());
        self.texts.iter().for_each(|text| text.write(out));
        out.extend(counts[1].to_be_bytes());
        self.exports.iter().for_each(|export| write(export, out));
        out.extend(counts[2].to_be_bytes());
        out.extend(self.hashes.iter().flat_map(|n| n.to_be_bytes()));
        out.extend(counts[3].to_be_bytes());
        for (text, number) in &self.imported {
            text.write(out);
            out.extend(number.to_be_bytes());
        }
    }

    pub fn bytes(&self) -> Vec<u8> {
        let mut out = vec![0, 0, 0, 0, self.version];
        out.extend(self.name.0.to_be_bytes());
        out.extend(self.name.1.to_be_bytes());
        self.write_lists(&mut out);
        out.extend(&self.tail);
        out.truncate(self.cut.unwrap_or(usize::MAX));
        let rest = out.len().saturating_sub(4) as u32;
        let length = self.length.unwrap_or(rest).to_be_bytes();
        out.iter_mut().zip(length).for_each(|(to, from)| *to = from);
        out
    }
}

fn write(e: &Export, out: &mut Vec<u8>) {
    out.extend([e.name, e.number].map(u32::to_be_bytes).as_flattened());
    let numbers = [e.outer, e.class, e.super_index, e.hash];
    out.extend(numbers.map(u64::to_be_bytes).as_flattened());
}
