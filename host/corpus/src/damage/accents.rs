//! Edits that write characters beyond ASCII into imported names. They are no faults: a sound draft stays accepted.
use super::Edit;
use crate::draft::Draft;

/// An edit of a draft that is accepted with it.
pub struct Accent {
    pub name: String,
    edit: Edit,
}

impl Accent {
    pub fn apply(&self, draft: &mut Draft) {
        (self.edit)(draft);
    }
}

/// Written into a wide name: Latin-1, letters of several scripts, and characters in surrogate pairs; some that lowering
/// changes, some that it makes, and some that it leaves.
const WIDE: [char; 14] = [
    'É', 'é', '\u{12f}', '\u{130}', 'Œ', '\u{1c5}', 'Σ', 'ς', 'Д', '\u{1e9e}', '\u{212a}', '𐐀',
    '𐐨', '🎯',
];

/// Written into a name of one byte to a character.
const LATIN1: [u8; 6] = [0x80, 0xb5, 0xc9, 0xd7, 0xe9, 0xff];

/// Every such edit of a draft made by `sound`.
pub fn accents(draft: &Draft) -> Vec<Accent> {
    (0..draft.packages.len())
        .flat_map(|i| {
            let wide = WIDE.map(|c| wide(i, c));
            wide.into_iter().chain(LATIN1.map(|byte| latin1(i, byte)))
        })
        .collect()
}

/// A character in place of the units that it needs, behind the first one of the first name.
fn wide(i: usize, c: char) -> Accent {
    let edit = move |d: &mut Draft| {
        let strings = &mut d.packages[i].1.imported.strings;
        let units = &mut [0; 2];
        for (place, unit) in strings[2..].chunks_mut(2).zip(c.encode_utf16(units)) {
            place.copy_from_slice(&unit.to_le_bytes());
        }
    };
    Accent {
        name: format!("package {i}: a wide imported name with {:#x}", c as u32),
        edit: Box::new(edit),
    }
}

/// A byte in place of the last one of the last name.
fn latin1(i: usize, byte: u8) -> Accent {
    let edit = move |d: &mut Draft| {
        let strings = &mut d.packages[i].1.imported.strings;
        *strings.last_mut().expect("a byte") = byte;
    };
    Accent {
        name: format!("package {i}: an imported name of Latin-1 with {byte:#x}"),
        edit: Box::new(edit),
    }
}
