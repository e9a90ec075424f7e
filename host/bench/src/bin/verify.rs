//! The check of a build's own hashes against the reference's: on script blocks and whole builds of several sizes and on
//! hostile shapes.
use std::hint::black_box;
use std::process::ExitCode;

use answer::Refusal;
use bench::Contest;
use bench::race::{Needs, Sides};
use corpus::generate::heavy::SHAPES;
use corpus::generate::{generate, natives};
use oracle::report::parts;
use oracle::verify::{class_verify, read};

const USAGE: &str = "usage: verify [--rounds NUMBER] [--rows NUMBER] [--only WORDS]
Times the call and the reference on script blocks and on whole builds of 1, 10 and 100 MB, best of 9 rounds or more, and on
hostile shapes of 100,000 objects, best of half as many. With --only, those whose names have the words in them.";

const ABOUT: &str = "\
reference: frame, parse_script_objects, parse_package_header and scan_header (question 24) of every package,
  ScriptObjects::verify, hash_package_name of every package, output;
  ours: the call, which does all of that, with a work buffer of twice the corpus's length;
  beside them the reference's reading alone: without verify, hash_package_name and output";

fn needs(corpus: &[u8]) -> Result<Needs, Refusal> {
    Ok(Needs {
        work: 2 * corpus.len(),
        output: class_verify(corpus, u64::MAX)?.len(),
    })
}

/// What the reference does before it verifies.
fn reading(corpus: &[u8], _: &[u8], _: &mut [u8]) {
    let parts = parts(corpus).expect("an accepted corpus");
    drop(black_box(read(&parts).expect("an accepted corpus")));
}

fn main() -> ExitCode {
    let contest = Contest {
        name: "verify",
        usage: USAGE,
        about: ABOUT,
        generated: &[
            ("script block", |bytes| natives(1, bytes).bytes()),
            ("whole build", |bytes| generate(1, bytes)),
        ],
        shapes: &SHAPES,
        no_room: false,
        needs,
        sides: Sides {
            reference: class_verify,
            ours: report::class_verify,
            beside_is: "reading",
            beside: reading,
        },
    };
    contest.run()
}
