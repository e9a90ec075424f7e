//! The characters that lowering changes, as the compiler has them: what the two committed tables are made from.
//!
//! `cargo run -p text --bin lower_pairs` prints the Unicode version, how many there are, and each with what it becomes;
//! with `--specs` the lines of the table in `crates/lower/specs/Table.antt`, with `--code` those in
//! `crates/lower/src/table.rt`, both without the lines around them.
use std::fmt::Write;
use std::process::ExitCode;

use corpus::name::pairs;

/// The lines of a table, each pair written so, and so many to a line.
fn table(line: usize, pair: impl Fn(u32, u32) -> String) -> String {
    let all: Vec<String> = pairs().map(|(c, low)| pair(c.into(), low.into())).collect();
    let lines = all
        .chunks(line)
        .map(|some| format!("    {}\n", some.join(" ")));
    lines.collect()
}

fn specs() -> String {
    table(8, |c, low| format!("({c:#x}, {low:#x}) ∷"))
}

fn code() -> String {
    table(1, |c, low| format!("({c:#x}, {low:#x}),"))
}

/// The version and every pair, to be read.
fn list() -> String {
    let (major, minor, update) = char::UNICODE_VERSION;
    let mut out = format!(
        "Unicode {major}.{minor}.{update}\n{} pairs\n",
        pairs().count()
    );
    for (c, low) in pairs() {
        let (from, to) = (u32::from(c), u32::from(low));
        writeln!(out, "U+{from:04X} {c}  U+{to:04X} {low}").expect("a string takes all");
    }
    out
}

fn main() -> ExitCode {
    let words: Vec<String> = std::env::args().skip(1).collect();
    let words: Vec<&str> = words.iter().map(String::as_str).collect();
    print!(
        "{}",
        match words[..] {
            [] => list(),
            ["--specs"] => specs(),
            ["--code"] => code(),
            _ => {
                eprintln!("usage: lower_pairs [--specs | --code]");
                return ExitCode::from(2);
            }
        }
    );
    ExitCode::SUCCESS
}
