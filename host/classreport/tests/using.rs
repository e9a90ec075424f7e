//! docs/USING.md: each command there is run, and writes what the document says.
use std::env;
use std::fs;
use std::path::{Path, PathBuf};
use std::process::Command;

/// The commands of a document with what each writes.
fn commands(document: &str) -> Vec<(String, String)> {
    let mut all: Vec<(String, String)> = Vec::new();
    let mut inside = false;
    for line in document.lines() {
        match (inside, line.strip_prefix("$ ")) {
            _ if line.starts_with("```") => inside = line == "```console",
            (true, Some(command)) => all.push((command.to_owned(), String::new())),
            (true, None) => {
                let (_, written) = all.last_mut().expect("a command comes first");
                written.push_str(line);
                written.push('\n');
            }
            (false, _) => {}
        }
    }
    all
}

/// Where the program stands, before everything else that can be called.
fn path() -> std::ffi::OsString {
    let own = Path::new(env!("CARGO_BIN_EXE_classreport"));
    let own = own.parent().expect("its folder").to_owned();
    let others = env::var_os("PATH").unwrap_or_default();
    let all: Vec<PathBuf> = std::iter::once(own)
        .chain(env::split_paths(&others))
        .collect();
    env::join_paths(all).expect("folders without a colon")
}

#[test]
fn the_document_says_what_is_written() {
    let document = concat!(env!("CARGO_MANIFEST_DIR"), "/../../docs/USING.md");
    let document = fs::read_to_string(document).expect("docs/USING.md");
    let place = Path::new(env!("CARGO_TARGET_TMPDIR")).join("using");
    let _ = fs::remove_dir_all(&place);
    fs::create_dir_all(&place).expect("a folder to work in");
    let all = commands(&document);
    assert!(all.len() > 12, "{} commands", all.len());
    for (command, written) in all {
        let out = Command::new("sh")
            .args(["-c", &format!("{command} 2>&1")])
            .current_dir(&place)
            .env("PATH", path())
            .env("LC_ALL", "C")
            .output()
            .expect("a shell");
        // A line of CSV ends in CR LF, which the document does not show.
        let out = String::from_utf8_lossy(&out.stdout).replace("\r\n", "\n");
        assert_eq!(out, written, "$ {command}");
    }
}
