//! Descriptions in house form whose header has a wanted length, up to the longest and beyond: written at once, since as data
//! they would need far more memory than their bytes.
use super::LONGEST_NAME;

/// What a header is filled with: entries of one of the lists.
pub struct Filling {
    pub name: &'static str,
    /// the list: names, exports, hashes or imported names
    list: usize,
    entry: fn() -> Vec<u8>,
    /// how many bytes of the header an entry takes
    takes: u64,
    /// how many more the first one takes
    first: u64,
}

/// From those that need the fewest bytes of description on.
pub const FILLINGS: [Filling; 5] = [
    Filling {
        name: "empty names",
        list: 0,
        entry: || text(""),
        takes: 10,
        first: 0,
    },
    Filling {
        name: "long wide names",
        list: 0,
        entry: || text(&format!("Œ{}", "a".repeat(LONGEST_NAME - 1))),
        takes: 10 + 2 * LONGEST_NAME as u64,
        first: 0,
    },
    Filling {
        name: "exports",
        list: 1,
        entry: || vec![0; 40],
        takes: 72,
        first: 0,
    },
    Filling {
        name: "empty imported names",
        list: 3,
        entry: || vec![0; 8],
        takes: 14,
        first: 12,
    },
    Filling {
        name: "hashes",
        list: 2,
        entry: || vec![0; 8],
        takes: 8,
        first: 0,
    },
];

/// A header without any entry but three names without letters: summary, batch, bulk size, no imported names.
const LEAST: u64 = 52 + 16 + 3 * 10 + 8 + 4;

fn text(text: &str) -> Vec<u8> {
    [&(text.len() as u32).to_be_bytes(), text.as_bytes()].concat()
}

/// A description whose header has exactly this many bytes, at least `LEAST`: as many entries as fit, and three names of
/// letters for what is left.
pub fn lengthy(filling: &Filling, header: u64) -> Vec<u8> {
    let entries = header.saturating_sub(LEAST + filling.first) / filling.takes;
    let taken = match entries {
        0 => LEAST,
        n => LEAST + filling.first + n * filling.takes,
    };
    let mut letters = header.checked_sub(taken).expect("room for three names");
    let names = [(); 3].map(|()| {
        let own = letters.min(LONGEST_NAME as u64);
        letters -= own;
        text(&"P".repeat(own as usize))
    });
    write(&names.concat(), filling, entries)
}

/// Three names, then so many entries.
fn write(names: &[u8], filling: &Filling, entries: u64) -> Vec<u8> {
    let entry = (filling.entry)();
    let rest = 1 + 8 + 4 * 4 + names.len() + entries as usize * entry.len();
    let mut out = Vec::with_capacity(4 + rest);
    let length = u32::try_from(rest).expect("a length of 4 bytes");
    out.extend(length.to_be_bytes());
    out.push(1);
    out.extend([0; 8]);
    for list in 0..4 {
        let own = if list == filling.list { entries } else { 0 };
        let letters = if list == 0 { 3 } else { 0 };
        out.extend((own as u32 + letters).to_be_bytes());
        if list == 0 {
            out.extend(names);
        }
        (0..own).for_each(|_| out.extend_from_slice(&entry));
    }
    out
}
