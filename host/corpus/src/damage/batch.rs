//! Faults of a name batch, for any place where one stands.
use crate::draft::BatchDraft;

/// A fault of a batch before it is known where the batch stands: a name, the refusal, the edit.
pub struct BatchFault {
    pub name: String,
    pub refusal: u8,
    pub edit: Box<dyn Fn(&mut BatchDraft)>,
}

fn fault(
    name: impl Into<String>,
    refusal: u8,
    edit: impl Fn(&mut BatchDraft) + 'static,
) -> BatchFault {
    BatchFault {
        name: name.into(),
        refusal,
        edit: Box::new(edit),
    }
}

/// Lengths at which a batch's fields are cut: count, string length, version. Behind the version they are cut too, but
/// asked about after it.
pub const BEFORE_VERSION: [usize; 5] = [0, 3, 4, 8, 15];

/// The version.
pub fn of_version() -> Vec<BatchFault> {
    let versions = [0, 0xC164_0001, 0x0000_0001_C164_0000];
    versions
        .map(|v| fault(format!("hash version {v:#x}"), 4, move |b| b.version = v))
        .into()
}

/// Fields that run past the block: hashes, headers, strings.
pub fn too_long() -> Vec<BatchFault> {
    let counts = [1 << 20, 1 << 29, 1 << 31, u32::MAX];
    let mut out: Vec<BatchFault> = counts
        .map(|n| fault(format!("{n} names"), 3, move |b| b.count = n))
        .into();
    out.push(fault("strings of all bits' length", 3, |b| {
        b.length = u32::MAX;
    }));
    out
}

/// Name by name, then what is left of the strings.
pub fn of_names(batch: &BatchDraft) -> Vec<BatchFault> {
    let mut out = Vec::new();
    for i in 0..batch.headers.len() {
        let wide = batch.is_wide(i);
        let longest = [if wide { 0xff } else { 0x7f }, 0xff];
        out.push(fault(format!("name {i} of 32767 units"), 5, move |b| {
            b.headers[i] = longest;
        }));
        out.push(fault(format!("name {i} past the strings"), 5, move |b| {
            let left = b.strings.len() - b.start(i);
            let units = if wide { left / 2 + 1 } else { left + 1 };
            b.headers[i] = [longest[0] & 0x80 | (units >> 8) as u8, units as u8];
        }));
        if wide {
            out.extend(of_wide_name(i));
        }
    }
    out.push(fault("a byte of the strings left", 7, |b| {
        b.headers.last_mut().expect("a name")[1] -= 1;
    }));
    out
}

/// Surrogates without their other half.
fn of_wide_name(i: usize) -> Vec<BatchFault> {
    let unit = move |b: &mut BatchDraft, k: usize, unit: u16| {
        let at = b.start(i) + 2 * k;
        b.strings[at..at + 2].copy_from_slice(&unit.to_le_bytes());
    };
    vec![
        fault(
            format!("name {i} starts with a low surrogate"),
            6,
            move |b| {
                unit(b, 0, 0xdc00);
            },
        ),
        fault(format!("name {i} has two high surrogates"), 6, move |b| {
            unit(b, 0, 0xd800);
            unit(b, 1, 0xdbff);
        }),
        fault(format!("name {i} ends in a high surrogate"), 6, move |b| {
            let last = b.units(i) - 1;
            unit(b, last, 0xd83c);
        }),
    ]
}
