//! Faults of a package's block.
use super::Fault;
use super::batch::{BEFORE_VERSION, BatchFault, of_names, of_version, too_long};
use crate::draft::{Draft, PackageDraft};

/// Makes faults of one package.
#[derive(Clone, Copy)]
struct Of(usize);

impl Of {
    fn fault(self, name: &str, refusal: u8, edit: impl Fn(&mut PackageDraft) + 'static) -> Fault {
        let name = format!("package {}: {name}", self.0);
        Fault::new(name, (refusal, self.0 as u32 + 2), move |d: &mut Draft| {
            edit(&mut d.packages[self.0].1);
        })
    }

    fn of_batch(self, f: BatchFault) -> Fault {
        let BatchFault {
            name,
            refusal,
            edit,
        } = f;
        self.fault(&name, refusal, move |p| edit(&mut p.batch))
    }

    fn of_imported(self, f: BatchFault) -> Fault {
        let BatchFault {
            name,
            refusal,
            edit,
        } = f;
        let name = format!("imported names: {name}");
        self.fault(&name, refusal, move |p| edit(&mut p.imported))
    }

    /// The header ends so many bytes behind the summary, with room for no region.
    fn ends_behind_summary(self, n: usize) -> Fault {
        self.fault(
            &format!("header ends {n} behind the summary"),
            3,
            move |p| {
                p.offsets = [52; 7];
                p.header_size = 52 + n as u32;
            },
        )
    }

    /// The header ends so many bytes behind where the imported names start.
    fn ends_in_imported(self, n: usize) -> Fault {
        self.fault(
            &format!("header ends {n} in the imported names"),
            3,
            move |p| {
                p.header_size = p.offsets[6] as u32 + n as u32;
            },
        )
    }
}

pub fn faults(package: &PackageDraft, i: usize) -> Vec<Fault> {
    let of = Of(i);
    let mut out = of_start(of, package.header_size);
    out.extend((0..7).flat_map(|k| of_offset(of, k)));
    out.extend((0..7).map(|k| out_of_order(of, k)));
    out.push(of.fault("imported names past the header", 17, |p| {
        p.offsets[6] = p.header_size as i32 + 1;
    }));
    out.extend(of_names_and_bulk(of, package));
    out.extend(of_regions(of, package.offsets));
    out.extend((0..package.exports.len()).map(|k| of_export(of, k)));
    out.extend(of_imported(of, package));
    out
}

/// Up to the offsets.
fn of_start(of: Of, header_size: u32) -> Vec<Fault> {
    let cut = |n: usize| of.fault(&format!("{n} bytes"), 3, move |p| p.cut = Some(n));
    let flag = |f: u32| of.fault(&format!("flag {f:#x}"), 14, move |p| p.flag = f);
    let size = |n: u32| of.fault(&format!("header size {n}"), 3, move |p| p.header_size = n);
    let mut out: Vec<Fault> = [0, 3].map(cut).into();
    out.extend([1, 0x8000_0000].map(flag));
    out.extend([4, 7].map(cut));
    out.push(of.fault("header size one more than the block", 15, |p| {
        p.header_size = p.bytes().len() as u32 + 1;
    }));
    out.push(of.fault("header size of all bits", 15, |p| p.header_size = u32::MAX));
    out.push(
        of.fault("block one byte below the header size", 15, move |p| {
            p.header_size = header_size;
            p.cut = Some(header_size as usize - 1);
        }),
    );
    out.extend([0, 7, 8, 15, 16, 19, 20, 23].map(size));
    out
}

/// Offset k: there, and not negative.
fn of_offset(of: Of, k: usize) -> Vec<Fault> {
    let size = |n: usize| {
        of.fault(&format!("header size {n}"), 3, move |p| {
            p.header_size = n as u32;
        })
    };
    let negative = |v: i32| of.fault(&format!("offset {k} is {v}"), 16, move |p| p.offsets[k] = v);
    let at = 24 + 4 * k;
    vec![size(at), size(at + 3), negative(-1), negative(i32::MIN)]
}

fn out_of_order(of: Of, k: usize) -> Fault {
    of.fault(&format!("offset {k} below its predecessor"), 17, move |p| {
        p.offsets[k] = if k == 0 { 51 } else { p.offsets[k - 1] - 1 };
    })
}

fn of_names_and_bulk(of: Of, package: &PackageDraft) -> Vec<Fault> {
    let bulk = |name: &str, refusal: u8, size: fn(i64) -> i64| {
        of.fault(name, refusal, move |p| {
            p.bulk_size = size(p.bulk.len() as i64);
        })
    };
    let batch = package.batch.size();
    let mut out: Vec<Fault> = BEFORE_VERSION.map(|n| of.ends_behind_summary(n)).into();
    out.extend(of_version().into_iter().map(|f| of.of_batch(f)));
    out.extend(too_long().into_iter().map(|f| of.of_batch(f)));
    out.extend([16, batch - 1].map(|n| of.ends_behind_summary(n)));
    out.extend(of_names(&package.batch).into_iter().map(|f| of.of_batch(f)));
    out.extend([batch, batch + 7].map(|n| of.ends_behind_summary(n)));
    out.extend([
        bulk("bulk size -1", 18, |_| -1),
        bulk("least bulk size", 18, |_| i64::MIN),
        bulk("greatest bulk size", 3, |_| i64::MAX),
        of.fault("bulk one byte past the header", 3, |p| {
            let left = p.header_size as usize - 60 - p.batch.size();
            p.bulk_size = left as i64 + 1;
        }),
        bulk("bulk one byte short", 19, |n| n - 1),
        bulk("bulk one byte long", 19, |n| n + 1),
    ]);
    out
}

/// Regions that hold no whole number of records.
fn of_regions(of: Of, offsets: [i32; 7]) -> Vec<Fault> {
    let moved = |name: &str, refusal: u8, k: usize, by: i32| {
        of.fault(name, refusal, move |p| p.offsets[k] = offsets[k] + by)
    };
    vec![
        moved("hashes of 4 bytes more", 20, 1, 4),
        moved("hashes of a byte less", 20, 1, -1),
        moved("import map of 4 bytes more", 20, 2, 4),
        moved("import map of a byte less", 20, 2, -1),
        moved("exports of 8 bytes more", 21, 3, 8),
        moved("exports of 8 bytes less", 21, 3, -8),
    ]
}

fn of_export(of: Of, k: usize) -> Fault {
    of.fault(&format!("export {k} without a name"), 10, move |p| {
        p.exports[k].name = p.batch.headers.len() as u32 | 1 << 30;
    })
}

/// The imported names, and what is asked behind them.
fn of_imported(of: Of, package: &PackageDraft) -> Vec<Fault> {
    let batch = package.imported.size();
    let numbers = 4 * package.numbers.len();
    let mut out: Vec<Fault> = BEFORE_VERSION.map(|n| of.ends_in_imported(n)).into();
    out.extend(of_version().into_iter().map(|f| of.of_imported(f)));
    out.extend(too_long().into_iter().map(|f| of.of_imported(f)));
    out.extend([16, batch - 1].map(|n| of.ends_in_imported(n)));
    out.extend(
        of_names(&package.imported)
            .into_iter()
            .map(|f| of.of_imported(f)),
    );
    out.extend([batch, batch + numbers - 1].map(|n| of.ends_in_imported(n)));
    out.push(of.fault("a byte behind the imported names", 22, |p| {
        p.header_size += 1;
    }));
    out.push(of.fault("no name", 10, |p| {
        p.name.0 = p.batch.headers.len() as u32 | 3 << 30;
    }));
    out
}
