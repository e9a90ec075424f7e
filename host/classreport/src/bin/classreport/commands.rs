//! The commands, with their options and what `--help` says of them.
use std::fmt::Write;

use crate::args::{Flag, Words};
use crate::failure::Failure;
use crate::{describe, diff, explain, files, header, schema, show, summary, verify, why};

pub struct Command {
    pub name: &'static str,
    /// what stands behind it, without options
    pub operands: &'static str,
    /// the fewest and the most operands
    pub count: (usize, usize),
    pub flags: &'static [Flag],
    /// in a line
    pub about: &'static str,
    /// all that there is to say, examples last
    pub help: &'static str,
    /// does the work and gives the exit status
    pub run: fn(&Words) -> Result<u8, Failure>,
}

const fn flag(long: &'static str, short: Option<char>, value: Option<&'static str>) -> Flag {
    Flag { long, short, value }
}

const FORMAT: Flag = flag("format", Some('f'), Some("FORMAT"));
const COLUMNS: Flag = flag("columns", None, Some("LIST"));
const PACKAGE: Flag = flag("package", None, Some("GLOB"));
const NATIVE: Flag = flag("native", None, Some("TEXT"));
const UNKNOWN: Flag = flag("unknown", None, None);
const BY_PACKAGE: Flag = flag("by-package", None, None);
const AS: Flag = flag("as", None, Some("KIND"));
const EXAMPLE: Flag = flag("example", None, None);
const REVERSE: Flag = flag("reverse", None, None);
const WIDTH: Flag = flag("width", None, Some("COLUMNS"));
const LOOKUPS: Flag = flag("lookups", None, Some("N"));
const OBJECTS: Flag = flag("objects", None, Some("N"));
const SCRIPT: Flag = flag("script", None, Some("FILE"));
const TEACHING: Flag = flag("teaching", None, None);

/// What every command takes.
pub const EVERYWHERE: [Flag; 6] = [
    flag("help", Some('h'), None),
    flag("version", Some('V'), None),
    flag("output", Some('o'), Some("FILE")),
    flag("quiet", Some('q'), None),
    flag("color", None, Some("WHEN")),
    flag("errors", None, Some("FORMAT")),
];

/// What `--help` says of those.
pub const EVERYWHERE_HELP: &str = "\
Everywhere:
  -o, --output FILE     write to FILE, which is replaced only when all is written; - is standard output
  -q, --quiet           no progress and nothing that only tells of success
      --color WHEN      auto, always or never
      --errors FORMAT   text, or json for programs: a line for each error
  -h, --help            this
  -V, --version         the version

Exit status: 0 done, 1 refused or differing, 2 usage, 3 input or output, 4 malformed file, 5 a hash or id that does not
match (`verify`).
";

/// What it says of the limits, where a command makes the call.
pub const LIMITS_HELP: &str = "\
Limits of the call:
      --lookups N       a chain may have N classes, 1 to 64 (without it 64)
      --objects N       a path may have N objects, its own counted, 1 to 65 (without it 65)
      --teaching        the teaching rooms' limits: 8 lookups and 4 objects
";

/// What the inputs are.
pub const INPUTS_HELP: &str = "\
BUILD is a folder with script.bin and the packages: packages/ID.bin (16 hexadecimal digits, taken by rising ids) or as
packages.tsv lists them (ID, a tab, the file; in corpus order, ids may repeat). CORPUS is a build in one file, REPORT is
what `report` writes. INPUT is any of them, - is standard input.
";

pub static COMMANDS: [Command; 13] = [
    Command {
        name: "show",
        operands: "INPUT",
        count: (1, 1),
        flags: &[
            FORMAT, COLUMNS, PACKAGE, NATIVE, UNKNOWN, AS, EXAMPLE, WIDTH, LOOKUPS, OBJECTS, TEACHING,
        ],
        about: "one row for each component: class and native class",
        help: "\
Options:
  -f, --format FORMAT   table, csv, tsv, jsonl or html (one page with a chart, a filter and each row's chain)
      --columns LIST    some of: id,package,instance,export,outer,kind,numbered,class_kind,class_known,class,
                        native_known,native,reference (csv, tsv and jsonl have all of them otherwise)
      --package GLOB    only packages of this name; * is anything, ? any one character; or an id as it is shown
      --native TEXT     only rows whose native class is known and has this text in it
      --unknown         only rows whose class or native class is unknown
      --width COLUMNS   how wide a table may be; a terminal's own width otherwise
      --example         the example in place of INPUT
      --as KIND         report or corpus, where a file can be read as either

An unknown class is (unknown) in a table, ? in csv and tsv, null in jsonl. A class may be called ?: the columns
class_known and native_known tell.

Examples:
  classreport show build
  classreport show --unknown build
  classreport show -f csv build -o rows.csv
  classreport show -f jsonl build | jq 'select(.native_known)'
  classreport show -f html build -o rows.html
",
        run: show::run,
    },
    Command {
        name: "check",
        operands: "BUILD|CORPUS...",
        count: (1, usize::MAX),
        flags: &[LOOKUPS, OBJECTS, TEACHING],
        about: "whether builds are accepted, a line each",
        help: "\
Examples:
  classreport check build
  classreport check -q builds/* || echo 'one is refused'
",
        run: files::check,
    },
    Command {
        name: "summary",
        operands: "INPUT",
        count: (1, 1),
        flags: &[
            FORMAT, PACKAGE, NATIVE, UNKNOWN, BY_PACKAGE, AS, EXAMPLE, WIDTH, LOOKUPS, OBJECTS, TEACHING,
        ],
        about: "how many rows each native class has",
        help: "\
Options:
  -f, --format FORMAT   table, csv, tsv or jsonl
      --by-package      for each package by itself
      --package, --native, --unknown, --width, --example, --as: as for `show`

Examples:
  classreport summary build
  classreport summary --by-package -f csv build -o counts.csv
",
        run: summary::run,
    },
    Command {
        name: "why",
        operands: "INPUT EXPORT",
        count: (2, 2),
        flags: &[PACKAGE, AS, EXAMPLE, LOOKUPS, OBJECTS, TEACHING],
        about: "how a component comes to its native class, or why it has none",
        help: "\
EXPORT is the name of a component's export, or of its instance.

      --package GLOB    only in packages of this name
      --example, --as: as for `show`

Examples:
  classreport why build Speaker_GEN_VARIABLE_0
  classreport why --package '/Game/Booth/*' build Bulb
",
        run: why::run,
    },
    Command {
        name: "verify",
        operands: "BUILD|CORPUS",
        count: (1, 1),
        flags: &[FORMAT, EXAMPLE, WIDTH],
        about: "whether a build has the hashes of its own names",
        help: "\
Compares the global index of each script object with the hash of its path, and the id of each package with that of its
name. The counts and the flags are the proved call's; which objects they are is found by the program and compared.

Options:
  -f, --format FORMAT   table, or json: one object, with all that was found
      --width COLUMNS   how wide a table may be; a terminal's own width otherwise
      --example         the example in place of the input

Packages that do not match stand first in the table; json has them in corpus order. Where anything does not match, a line
on standard error says how much it is, and the exit status is 5. Objects whose path is not known are shown too; they are no
fault. With -q no table is written.

Examples:
  classreport verify build
  classreport verify -q build || echo 'do not start the campaign'
  classreport verify -f json build | jq '.mismatched'
",
        run: verify::run,
    },
    Command {
        name: "diff",
        operands: "OLD NEW",
        count: (2, 2),
        flags: &[AS, LOOKUPS, OBJECTS, TEACHING],
        about: "which rows changed; the order of packages counts for nothing",
        help: "\
Each may be a report, a corpus or a build. Sections are matched by package id, rows by export.

Examples:
  classreport diff yesterday.report build
",
        run: diff::run,
    },
    Command {
        name: "explain",
        operands: "[NUMBER]",
        count: (0, 1),
        flags: &[],
        about: "what a refusal means and what usually causes it",
        help: "\
NUMBER is a question, 1 to 22 or 24 to 29, or the number that the call returned. Without it all questions are listed.

Examples:
  classreport explain 17
  classreport explain 0x8000001100000008
",
        run: explain::run,
    },
    Command {
        name: "header",
        operands: "DESCRIPTION",
        count: (1, 1),
        flags: &[],
        about: "a package header from a description in JSON, for tests without the engine",
        help: schema::HELP,
        run: header::run,
    },
    Command {
        name: "describe",
        operands: "HEADER",
        count: (1, 1),
        flags: &[SCRIPT],
        about: "the description of a package header, the way back",
        help: "\
HEADER is a package's file. What is written is JSON as `header` reads it (`classreport header --help`): it gives the same
header, byte for byte, where that was written by `header`. An engine's header also has what no description says: bulk data,
an import map, bundles and dependencies, hashes of names, flags and sizes. That is left out, and a line on standard error
says what was there. A list is printed only where `header` would not make the same of what is used.

      --script FILE     a build's script.bin: script objects are then told by their paths

Examples:
  classreport describe --script build/script.bin build/packages/90448a944c3b20bd.bin -o echo.json
  classreport header echo.json | classreport describe -
",
        run: describe::run,
    },
    Command {
        name: "report",
        operands: "BUILD|CORPUS",
        count: (1, 1),
        flags: &[EXAMPLE, LOOKUPS, OBJECTS, TEACHING],
        about: "the report itself, as the proved call writes it",
        help: "\
A refused corpus writes nothing: a file that was there stays as it was.

      --example         the example in place of the input

Examples:
  classreport report build -o build.report
  classreport report - < build.corpus > build.report
",
        run: files::report,
    },
    Command {
        name: "pack",
        operands: "BUILD",
        count: (1, 1),
        flags: &[REVERSE],
        about: "a build as one file, a corpus",
        help: "\
What the files hold is not looked at: that is what `check` is for.

      --reverse         the packages in reverse order

Examples:
  classreport pack build -o build.corpus
",
        run: files::pack,
    },
    Command {
        name: "unpack",
        operands: "CORPUS -o BUILD",
        count: (1, 1),
        flags: &[EXAMPLE],
        about: "a corpus as a folder",
        help: "\
The folder must not be there yet, or be empty.

Examples:
  classreport unpack build.corpus -o build
",
        run: files::unpack,
    },
    Command {
        name: "example",
        operands: "BUILD",
        count: (1, 1),
        flags: &[],
        about: "write a small build to try all of this on",
        help: "\
Examples:
  classreport example booth
  classreport show booth
",
        run: files::example,
    },
];

/// `classreport --help`.
pub fn overview() -> String {
    let mut text = String::from(
        "The class and native class of each component in a build of an Unreal Engine title.\n\n\
         Usage: classreport COMMAND ...; classreport COMMAND --help\n\nCommands:\n",
    );
    for Command { name, about, .. } in &COMMANDS {
        let _ = writeln!(text, "  {name:9}{about}");
    }
    format!("{text}\n{INPUTS_HELP}\n{EVERYWHERE_HELP}\nTry:\n  classreport show --example\n")
}

impl Command {
    /// `classreport COMMAND --help`.
    pub fn whole_help(&self) -> String {
        let Command {
            name,
            operands,
            about,
            help,
            flags,
            ..
        } = self;
        let limited = flags.iter().any(|flag| flag.long == LOOKUPS.long);
        let limits = if limited {
            format!("{LIMITS_HELP}\n")
        } else {
            String::new()
        };
        format!(
            "{about}\n\nUsage: classreport {name} {operands}\n\n{help}\n{limits}{INPUTS_HELP}\n{EVERYWHERE_HELP}"
        )
    }
}
