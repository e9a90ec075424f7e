//! Faults of the corpus's frame, and those asked about once every block has been read.
use super::Fault;
use crate::draft::Draft;

pub fn faults() -> Vec<Fault> {
    let version = |v: u8| Fault::new(format!("version {v}"), (2, 0), move |d| d.version = v);
    let mut out = of_length();
    out.extend([0, 2, 255].map(version));
    out.extend(of_parts());
    out
}

fn one(name: &str, edit: impl Fn(&mut Draft) + 'static) -> Fault {
    Fault::new(name, (1, 0), edit)
}

/// The corpus's length, with at least the version byte.
fn of_length() -> Vec<Fault> {
    let cut = |n: usize| one(&format!("corpus of {n} bytes"), move |d| d.cut = Some(n));
    let length = |name: &str, length: fn(u32) -> u32| {
        one(name, move |d| {
            d.length = Some(length(d.bytes().len() as u32));
        })
    };
    let mut out: Vec<Fault> = [0, 1, 2, 3].map(cut).into();
    out.extend([
        one("no version byte", |d| {
            (d.length, d.cut) = (Some(0), Some(4));
        }),
        length("length one more", |n| n - 3),
        length("length one less", |n| n - 5),
        length("length of all bits", |_| u32::MAX),
    ]);
    out
}

/// The script block's length, the package count and the packages' lengths.
fn of_parts() -> Vec<Fault> {
    let count = |name: &str, count: fn(u32) -> u32| {
        one(name, move |d| {
            d.count = Some(count(d.packages.len() as u32));
        })
    };
    let last = |name: &str, length: fn(u32) -> u32| {
        one(name, move |d| {
            let last = d.packages.last().expect("a package");
            d.last_length = Some(length(last.1.bytes().len() as u32));
        })
    };
    vec![
        one("nothing behind the version", |d| {
            (d.length, d.cut) = (Some(1), Some(5));
        }),
        one("script block longer than the corpus", |d| {
            d.script_length = Some(u32::MAX);
        }),
        one("package count missing", |d| {
            let end = 9 + d.script.bytes().len();
            (d.length, d.cut) = (Some(end as u32 - 1), Some(end + 3));
        }),
        count("a package too many told", |n| n + 1),
        count("package count of all bits", |_| u32::MAX),
        count("a package too few told", |n| n - 1),
        last("last package longer than the corpus", |_| u32::MAX),
        last("last package a byte longer or shorter", |n| n ^ 1),
        one("two bytes behind the last package", |d| d.tail = vec![0; 2]),
    ]
}

/// 24 to 26: a key that comes twice in one package and in two of one id; buffers too short.
pub fn last_faults() -> Vec<Fault> {
    let twice_in = |i: usize| {
        Fault::new(
            format!("a key twice in package {i}"),
            (24, i as u32 + 2),
            move |d| {
                let exports = &mut d.packages[i].1.exports;
                exports[1].hash = exports[0].hash;
            },
        )
    };
    vec![
        twice_in(0),
        Fault::new("a key in two packages of one id", (24, 3), |d| {
            d.packages[1].0 = d.packages[0].0;
            d.packages[1].1.exports[0].hash = d.packages[0].1.exports[1].hash;
        }),
        twice_in(1),
        Fault::new("no work buffer", (25, 0), |d| d.work = 0),
        Fault::new("no report buffer", (26, 0), |d| d.report = 0),
        Fault::new("a report buffer of 9 bytes", (26, 0), |d| d.report = 9),
    ]
}
