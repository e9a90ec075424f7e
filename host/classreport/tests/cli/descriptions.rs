//! Descriptions from a seed, with what JSON and headers might lose: texts that repeat or go unused, every width, numbers to
//! the last bit, indices of every kind.
use classreport::{Description, Export, ImportedName, Name};
use corpus::generate::Random;

const TEXTS: [&str; 16] = [
    "",
    "A",
    "/Game/Tone",
    "Tone_GEN_VARIABLE",
    "Default__Tone_C",
    "Töne",
    "ÿ",
    "Ā",
    "Тон",
    "音",
    "♪🎵",
    "\u{feff}",
    "\"\\/\u{8}\u{c}\n\r\t\0\u{1f}\u{7f}",
    "\u{2028}\u{202e}\u{ffff}",
    "0x10",
    "null",
];

pub(crate) fn random(seed: u64) -> Description {
    let r = &mut Random(seed);
    let texts: Vec<String> = (0..=r.below(6)).map(|_| text(r)).collect();
    let count = texts.len() as u64;
    Description {
        name: name(r, count),
        texts,
        hashes: (0..r.below(4)).map(|_| word(r)).collect(),
        imported: (0..r.below(4)).map(|_| imported(r)).collect(),
        exports: (0..r.below(6)).map(|_| export(r, count)).collect(),
    }
}

fn text(r: &mut Random) -> String {
    let mut text = (*r.pick(&TEXTS)).to_owned();
    if r.chance(10) {
        text = text.repeat(r.below(300) as usize);
    }
    text
}

fn number(r: &mut Random) -> u32 {
    let any = r.next() as u32;
    *r.pick(&[0, 0, 0, 1, 2, u32::MAX, any])
}

fn word(r: &mut Random) -> u64 {
    let any = r.next();
    *r.pick(&[0, 1, 0x1001, u64::MAX, 1 << 53 | 1, any])
}

fn name(r: &mut Random, count: u64) -> Name {
    Name {
        text: r.below(count) as u32,
        number: number(r),
    }
}

fn imported(r: &mut Random) -> ImportedName {
    ImportedName {
        text: text(r),
        number: number(r),
    }
}

fn export(r: &mut Random, texts: u64) -> Export {
    Export {
        name: name(r, texts),
        outer: index(r),
        class: index(r),
        super_index: index(r),
        hash: word(r),
    }
}

/// Of each kind, in and out of the lists.
fn index(r: &mut Random) -> u64 {
    let (any, export) = (r.next(), r.below(5));
    let import = 2 << 62 | r.below(4) << 32 | r.below(4);
    *r.pick(&[u64::MAX, export, import, import, any, any | 3 << 62])
}
