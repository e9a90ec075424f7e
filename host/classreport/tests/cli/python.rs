//! Python's own readers, where it is at hand.
use std::path::Path;
use std::process::Command;

/// The rows of a file as Python reads them, or `None` where there is no Python. Modes: csv, tsv, jsonl, html.
pub(crate) fn read_back(mode: &str, file: &Path) -> Option<Vec<Vec<String>>> {
    let script = concat!(env!("CARGO_MANIFEST_DIR"), "/tests/cli/read_back.py");
    let Ok(ran) = Command::new("python3")
        .arg(script)
        .arg(mode)
        .arg(file)
        .output()
    else {
        println!("no Python is at hand: {mode} is not read back by it");
        return None;
    };
    let said = String::from_utf8_lossy(&ran.stderr);
    assert!(ran.status.success(), "{mode}: {said}");
    let text = String::from_utf8(ran.stdout).expect("hexadecimal digits");
    Some(
        text.lines()
            .map(|line| line.split(' ').map(unhex).collect())
            .collect(),
    )
}

/// The text whose UTF-8 these digits are; `-` stands for no text.
fn unhex(digits: &str) -> String {
    let digits = digits.trim_end_matches('-');
    let byte = |at: usize| u8::from_str_radix(&digits[at..at + 2], 16).expect("two digits");
    let bytes = (0..digits.len()).step_by(2).map(byte).collect();
    String::from_utf8(bytes).expect("UTF-8")
}
