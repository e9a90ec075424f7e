//! Runs the program in a folder of its own.
use std::ffi::OsStr;
use std::fs;
use std::io::Write;
use std::path::{Path, PathBuf};
use std::process::{Command, Output, Stdio};

pub(crate) const PROGRAM: &str = env!("CARGO_BIN_EXE_classreport");

/// What a run of the program left.
#[derive(Debug, PartialEq, Eq)]
pub(crate) struct Ran {
    pub(crate) status: i32,
    pub(crate) out: String,
    pub(crate) err: String,
}

impl Ran {
    pub(crate) fn of(output: &Output) -> Ran {
        Ran {
            status: output.status.code().expect("no signal ended it"),
            out: String::from_utf8_lossy(&output.stdout).into_owned(),
            err: String::from_utf8_lossy(&output.stderr).into_owned(),
        }
    }
}

/// A folder in which a test works.
pub(crate) struct Place(pub(crate) PathBuf);

impl Place {
    /// An empty folder with the test's name.
    pub(crate) fn new(name: &str) -> Place {
        let folder = Path::new(env!("CARGO_TARGET_TMPDIR")).join(name);
        let _ = fs::remove_dir_all(&folder);
        fs::create_dir_all(&folder).expect("a folder to work in");
        Place(folder)
    }

    /// The same, with the example build in `booth`.
    pub(crate) fn with_example(name: &str) -> Place {
        let place = Place::new(name);
        place.done(&["example", "-q", "booth"]);
        place
    }

    pub(crate) fn write(&self, name: &str, bytes: &[u8]) {
        fs::write(self.0.join(name), bytes).expect("a file to work with");
    }

    pub(crate) fn read(&self, name: &str) -> Vec<u8> {
        fs::read(self.0.join(name)).expect("the file is there")
    }

    pub(crate) fn command(&self, words: &[impl AsRef<OsStr>]) -> Command {
        let mut command = Command::new(PROGRAM);
        command
            .args(words)
            .current_dir(&self.0)
            .env_remove("NO_COLOR");
        command
    }

    pub(crate) fn output(&self, words: &[&str]) -> Output {
        self.command(words).output().expect("the program runs")
    }

    pub(crate) fn run(&self, words: &[&str]) -> Ran {
        Ran::of(&self.output(words))
    }

    /// What it writes where all goes well.
    pub(crate) fn done(&self, words: &[&str]) -> String {
        let Ran { status, out, err } = self.run(words);
        assert_eq!((status, &*err), (0, ""), "{words:?}");
        out
    }

    /// What it says where it ends with this status and writes nothing.
    pub(crate) fn fails(&self, status: i32, words: &[&str]) -> String {
        let ran = self.run(words);
        assert_eq!(
            (ran.status, &*ran.out),
            (status, ""),
            "{words:?}: {}",
            ran.err
        );
        ran.err
    }

    /// With bytes on its standard input.
    pub(crate) fn fed(&self, words: &[&str], input: &[u8]) -> Output {
        let mut child = self
            .command(words)
            .stdin(Stdio::piped())
            .stdout(Stdio::piped())
            .stderr(Stdio::piped())
            .spawn()
            .expect("the program runs");
        child
            .stdin
            .take()
            .expect("its input")
            .write_all(input)
            .expect("it reads");
        child.wait_with_output().expect("it ends")
    }

    /// The names in a folder.
    pub(crate) fn names(&self, folder: &str) -> Vec<String> {
        let entries = fs::read_dir(self.0.join(folder)).expect("the folder is there");
        let name = |entry: std::io::Result<fs::DirEntry>| entry.expect("an entry").file_name();
        let mut names: Vec<String> = entries
            .map(|entry| name(entry).to_string_lossy().into_owned())
            .collect();
        names.sort();
        names
    }
}
