//! A refusal of each number, with its message.
use std::fs;

use classreport::{Question, Refusal};
use corpus::damage::{faults, sound};
use corpus::generate::sized;

use crate::tool::Place;

/// A corpus for each refusal from 1 to 24, with its block; 23 is retired.
fn refused() -> Vec<(u8, u32, Vec<u8>)> {
    let base = sound(7);
    let all = faults(&base);
    let of = |number: u8| {
        // In the last block that has it: a package rather than the script block.
        let fault = all.iter().rfind(|fault| fault.refusal == number)?;
        let mut draft = base.clone();
        fault.apply(&mut draft);
        Some((number, fault.block, draft.bytes()))
    };
    (1..=24).filter_map(of).collect()
}

#[test]
fn each_number_has_its_message() {
    let place = Place::new("refusals");
    let all = refused();
    let numbers: Vec<u8> = all.iter().map(|(number, ..)| *number).collect();
    assert_eq!(numbers, (1..=22).chain([24]).collect::<Vec<u8>>());
    for (number, block, corpus) in all {
        place.write("bad.corpus", &corpus);
        let failed = Question::numbered(number).expect("a question").failed;
        let at = match block {
            0 => "block 0, the corpus".to_owned(),
            1 => "block 1, the script block".to_owned(),
            _ => format!(
                "block {block}, package {}, id {:016x}",
                block - 1,
                98 + block
            ),
        };
        let said = place.fails(1, &["report", "bad.corpus"]);
        assert_eq!(
            said,
            format!("classreport: bad.corpus: refused {number} ({at}): {failed}\n")
        );
        let checked = place.run(&["check", "bad.corpus"]);
        assert_eq!((checked.status, &*checked.err), (1, ""));
        assert_eq!(format!("classreport: {}", checked.out), said);
        let explained = place.done(&["explain", &number.to_string()]);
        assert!(explained.starts_with(&format!("Refused {number}: {failed}.\n")));
    }
}

/// In a build the message names the file of the block; for programs it has all of it.
#[test]
fn a_build_names_the_file() {
    let place = Place::new("refusals-build");
    let mut in_script = 0;
    for (number, block, corpus) in refused().into_iter().filter(|(_, block, _)| *block > 0) {
        let _ = fs::remove_dir_all(place.0.join("build"));
        place.write("bad.corpus", &corpus);
        place.done(&["unpack", "bad.corpus", "-o", "build"]);
        let id = 98 + block;
        // Two packages of one id have names of their own.
        let package = if place.names("build").contains(&"packages.tsv".to_owned()) {
            "packages/000002-0000000000000064.bin".to_owned()
        } else {
            format!("packages/{id:016x}.bin")
        };
        let file = if block == 1 {
            "script.bin".to_owned()
        } else {
            package
        };
        in_script += u64::from(block == 1);
        let refusal = Refusal {
            question: number,
            block,
        };
        let said = place.fails(1, &["show", "build"]);
        assert_eq!(said, format!("classreport: build/{file}: {refusal}\n"));
        let said = place.fails(1, &["report", "--errors=json", "build"]);
        let start = format!(
            "{{\"error\":\"refused\",\"status\":1,\"file\":\"build/{file}\",\"question\":{number},\"block\":{block},"
        );
        assert!(said.starts_with(&start), "{said}");
    }
    assert!(in_script > 3);
}

/// 25 never happens here, since the work buffer is always long enough; 26 is a report of a byte too many.
#[test]
fn the_longest_report_and_a_byte_more() {
    let place = Place::new("refusals-longest");
    let memory = fs::read_to_string("/proc/meminfo").unwrap_or_default();
    let kilobytes = memory
        .split_whitespace()
        .nth(1)
        .and_then(|word| word.parse::<u64>().ok());
    if kilobytes.is_none_or(|kilobytes| kilobytes < 8_000_000) {
        println!("less than 8 GB of memory: a report of more than 4 GB is not asked for");
        return;
    }
    place.write("long.corpus", &sized(classreport::LONGEST + 1).bytes());
    let said = place.fails(1, &["report", "long.corpus"]);
    assert_eq!(
        said,
        "classreport: long.corpus: refused 26 (block 0, the corpus): the report is too long\n"
    );
}

/// A refused corpus leaves what was there.
#[test]
fn nothing_is_written() {
    let place = Place::with_example("refusals-output");
    place.write("old", b"as it was");
    place.write("bad.corpus", b"\0\0\0\x01\x02");
    for words in [["report", "bad.corpus"], ["unpack", "bad.corpus"]] {
        place.fails(1, &[&words[..], &["-o", "old"]].concat());
        assert_eq!(place.read("old"), b"as it was");
        place.fails(1, &[&words[..], &["-o", "new"]].concat());
    }
    // A file that is neither is malformed, since nobody said what it is.
    let said = place.fails(4, &["show", "bad.corpus", "-o", "old"]);
    assert_eq!(
        said,
        "classreport: bad.corpus: it is neither a report (malformed report, byte 4: its version is not 1) nor a corpus \
         (refused 2 (block 0, the corpus): the corpus has a version other than 1)\n"
    );
    place.fails(1, &["show", "--as", "corpus", "bad.corpus", "-o", "old"]);
    place.fails(4, &["show", "--as", "report", "bad.corpus", "-o", "old"]);
    assert_eq!(place.read("old"), b"as it was");
    assert_eq!(place.names("."), ["bad.corpus", "booth", "old"]);
}
