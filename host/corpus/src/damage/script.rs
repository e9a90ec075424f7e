//! Faults of the script block.
use super::Fault;
use super::batch::{BEFORE_VERSION, BatchFault, of_names, of_version, too_long};
use crate::draft::{Draft, ScriptDraft};

fn fault(name: &str, refusal: u8, edit: impl Fn(&mut ScriptDraft) + 'static) -> Fault {
    Fault::new(
        format!("script: {name}"),
        (refusal, 1),
        move |d: &mut Draft| {
            edit(&mut d.script);
        },
    )
}

fn of_batch(f: BatchFault) -> Fault {
    let BatchFault {
        name,
        refusal,
        edit,
    } = f;
    fault(&name, refusal, move |s| edit(&mut s.batch))
}

pub fn faults(script: &ScriptDraft) -> Vec<Fault> {
    let missing = |n: usize| fault(&format!("{n} bytes"), 3, move |s| s.cut = Some(n));
    let batch = script.batch.size();
    let mut out: Vec<Fault> = BEFORE_VERSION.map(missing).into();
    out.extend(of_version().into_iter().map(of_batch));
    out.extend(too_long().into_iter().map(of_batch));
    out.extend([16, batch - 1].map(missing));
    out.extend(of_names(&script.batch).into_iter().map(of_batch));
    out.extend([batch, batch + 3].map(missing));
    out.extend(of_count(script.entries.len()));
    out.extend((0..script.entries.len()).flat_map(of_entry));
    out.push(fault("a byte left", 13, |s| s.tail = vec![0]));
    out.push(fault("31 bytes left", 13, |s| s.tail = vec![0; 31]));
    out
}

/// The count: not negative, and so many entries left.
fn of_count(entries: usize) -> Vec<Fault> {
    let count = |refusal: u8, n: i32| {
        fault(&format!("count {n}"), refusal, move |s| {
            s.count = n;
        })
    };
    vec![
        count(8, -1),
        count(8, i32::MIN),
        count(9, entries as i32 + 1),
        count(9, i32::MAX),
        fault("last entry cut short", 9, |s| {
            s.cut = Some(s.batch.size() + 4 + 32 * s.entries.len() - 1);
        }),
    ]
}

/// An entry's name, the kind of its index, and whether its index is new.
fn of_entry(i: usize) -> Vec<Fault> {
    let no_name = |top: u32| {
        fault(&format!("entry {i} without a name"), 10, move |s| {
            s.entries[i].name = s.batch.headers.len() as u32 | top;
        })
    };
    let kind = |kind: u64| {
        fault(&format!("entry {i} of kind {kind}"), 11, move |s| {
            s.entries[i].global = kind << 62 | s.entries[i].global & 7;
        })
    };
    let mut out: Vec<Fault> = [0, 3 << 30].map(no_name).into();
    out.extend([0, 2, 3].map(kind));
    if i > 0 {
        out.push(fault(
            &format!("entry {i} as the one before"),
            12,
            move |s| {
                s.entries[i].global = s.entries[i - 1].global;
            },
        ));
    }
    out
}
