//! Files that are missing, unreadable, malformed or full, and pipes that nobody reads.
use std::fs::{self, File};
use std::io::Read;
use std::os::unix::fs::{PermissionsExt, symlink};
use std::process::Stdio;

use crate::rows::many;
use crate::tool::{Place, Ran};

#[test]
fn missing_files_are_named() {
    let place = Place::with_example("files-missing");
    for words in [
        &["show", "nothing"][..],
        &["report", "nothing"],
        &["summary", "nothing"],
        &["why", "nothing", "x"],
        &["diff", "booth", "nothing"],
        &["unpack", "nothing", "-o", "x"],
    ] {
        let said = place.fails(3, words);
        assert_eq!(said, "classreport: nothing: No such file or directory\n");
    }
    fs::remove_file(place.0.join("booth/script.bin")).expect("it was there");
    let said = place.fails(3, &["show", "booth"]);
    assert_eq!(
        said,
        "classreport: booth/script.bin: No such file or directory\n"
    );
    let said = place.fails(3, &["report", "--example", "-o", "no/such/folder"]);
    assert_eq!(
        said,
        "classreport: no/such/folder: No such file or directory\n"
    );
    let said = place.fails(3, &["example", "booth"]);
    assert_eq!(
        said,
        "classreport: booth: the folder is there and not empty\n"
    );
}

#[test]
fn unreadable_files_are_named() {
    let place = Place::new("files-unreadable");
    place.write("locked", b"");
    let mode = fs::Permissions::from_mode(0o000);
    fs::set_permissions(place.0.join("locked"), mode).expect("it is ours");
    if File::open(place.0.join("locked")).is_ok() {
        println!("this user may read anything: an unreadable file is not tried");
        return;
    }
    let said = place.fails(3, &["show", "locked"]);
    assert_eq!(said, "classreport: locked: Permission denied\n");
}

#[test]
fn builds_that_are_none() {
    let place = Place::with_example("files-builds");
    let malformed = |file: &str, bytes: &[u8], expected: &str| {
        place.write(file, bytes);
        assert_eq!(
            place.fails(4, &["pack", "booth"]),
            format!("classreport: {expected}\n")
        );
        fs::remove_file(place.0.join(file)).expect("it was there");
    };
    let by_id = "a package's file is called by its id: 16 hexadecimal digits and .bin";
    malformed(
        "booth/packages/notes.txt",
        b"",
        &format!("booth/packages/notes.txt: {by_id}"),
    );
    malformed(
        "booth/packages/12.bin",
        b"",
        &format!("booth/packages/12.bin: {by_id}"),
    );
    malformed(
        "booth/packages/45CF250B15A44ECE.bin",
        b"",
        "booth/packages/45cf250b15a44ece.bin: another file has the same id: list both in packages.tsv",
    );
    let line = "line 2 is not 16 hexadecimal digits, a tab and a file";
    let list = b"45cf250b15a44ece\tpackages/45cf250b15a44ece.bin\n12\tx\n";
    malformed(
        "booth/packages.tsv",
        list,
        &format!("booth/packages.tsv: {line}"),
    );
    place.write("booth/packages/.hidden", b"");
    place.done(&["check", "booth"]);
    fs::create_dir(place.0.join("empty")).expect("a folder");
    let said = place.fails(4, &["show", "empty"]);
    assert_eq!(
        said,
        "classreport: empty: it is no build: it has neither packages/ nor packages.tsv\n"
    );
}

#[test]
fn malformed_files() {
    let place = Place::with_example("files-malformed");
    place.done(&["report", "booth", "-o", "whole"]);
    let whole = place.read("whole");
    place.write("cut", &whole[..whole.len() - 1]);
    let said = place.fails(4, &["show", "--as=report", "cut"]);
    assert_eq!(
        said,
        "classreport: cut: malformed report, byte 4: its length is wrong\n"
    );
    let said = place.fails(4, &["summary", "--errors", "json", "cut"]);
    assert!(said.starts_with(
        "{\"error\":\"malformed\",\"status\":4,\"file\":\"cut\",\"message\":\"it is neither"
    ));
    // This is a report of no packages; as a corpus its frame is broken.
    place.write("none", &[0, 0, 0, 5, 1, 0, 0, 0, 0]);
    assert_eq!(
        place.done(&["show", "none"]),
        "package  instance  class  native\n"
    );
}

/// A corpus with a package of 8 bytes that is also a report with a section.
#[test]
fn a_file_that_is_both() {
    let place = Place::new("files-both");
    let both = corpus::corpus(&[0], &[(0x0541, vec![0; 8])]);
    assert!(classreport::Report::parse(&both).is_ok());
    place.write("both", &both);
    let said = place.fails(2, &["show", "both"]);
    assert_eq!(
        said,
        "classreport: both: it can be read as a report and as a corpus: say which with --as report or --as corpus\n\
         Try 'classreport --help'.\n"
    );
    let said = place.done(&["summary", "--as", "report", "both"]);
    assert!(
        said.contains("\n0 rows in 1 packages with 0 exports;"),
        "{said}"
    );
    let said = place.fails(1, &["summary", "--as", "corpus", "both"]);
    assert_eq!(
        said,
        "classreport: both: refused 3 (block 1, the script block): a field's bytes are not there\n"
    );
}

#[test]
fn a_full_disk_is_told() {
    let place = Place::with_example("files-full");
    if !fs::exists("/dev/full").unwrap_or(false) {
        println!("no /dev/full here: a full disk is not tried");
        return;
    }
    place.write("many.corpus", &many(2_000));
    for words in [
        &["show", "many.corpus"][..],
        &["report", "booth"],
        &["summary", "booth"],
        &["--help"],
    ] {
        let full = File::options()
            .write(true)
            .open("/dev/full")
            .expect("it is there");
        let ran = place.command(words).stdout(full).output().expect("it runs");
        let ran = Ran::of(&ran);
        assert_eq!(ran.status, 3);
        assert_eq!(
            ran.err,
            "classreport: standard output: No space left on device\n"
        );
    }
    let said = place.fails(3, &["show", "-f", "csv", "booth", "-o", "/dev/full"]);
    assert_eq!(said, "classreport: /dev/full: No space left on device\n");
}

#[test]
fn a_closed_pipe_ends_silently() {
    let place = Place::new("files-pipe");
    place.write("many.corpus", &many(20_000));
    for format in ["table", "csv", "jsonl", "html"] {
        let mut child = place
            .command(&["show", "-f", format, "many.corpus"])
            .stdout(Stdio::piped())
            .stderr(Stdio::piped())
            .spawn()
            .expect("it runs");
        let mut start = [0; 10];
        child
            .stdout
            .take()
            .expect("its output")
            .read_exact(&mut start)
            .expect("it writes");
        let ran = Ran::of(&child.wait_with_output().expect("it ends"));
        assert_eq!((ran.status, &*ran.err), (0, ""), "{format}");
    }
}

#[test]
fn an_output_is_replaced_as_a_whole() {
    let place = Place::with_example("files-replaced");
    place.write("kept", b"old");
    fs::set_permissions(place.0.join("kept"), fs::Permissions::from_mode(0o640))
        .expect("it is ours");
    symlink("kept", place.0.join("link")).expect("a link");
    place.done(&["show", "-f", "csv", "booth", "-o", "link"]);
    let written = place.read("kept");
    assert_eq!(
        written,
        place.output(&["show", "-f", "csv", "booth"]).stdout
    );
    let link = fs::symlink_metadata(place.0.join("link")).expect("it is there");
    assert!(link.is_symlink(), "the link stays");
    let mode = fs::metadata(place.0.join("kept"))
        .expect("it is there")
        .permissions()
        .mode();
    assert_eq!(mode & 0o777, 0o640);
    assert_eq!(
        place.names("."),
        ["booth", "kept", "link"],
        "nothing is left beside it"
    );
}

/// A pseudo-terminal by `script`, where that is installed.
#[test]
fn no_bytes_to_a_terminal() {
    let place = Place::with_example("files-terminal");
    let inner = format!("{} report booth", crate::tool::PROGRAM);
    let ran = std::process::Command::new("script")
        .args(["-qec", &inner, "/dev/null"])
        .current_dir(&place.0)
        .stdin(Stdio::null())
        .output();
    let Ok(ran) = ran else {
        println!("no `script` is at hand: a terminal is not tried");
        return;
    };
    let said = String::from_utf8_lossy(&ran.stdout).replace("\r\n", "\n");
    assert_eq!(ran.status.code(), Some(2), "{said}");
    assert!(
        said.starts_with("classreport: this is no text for a terminal: name a file with -o FILE"),
        "{said}"
    );
}
