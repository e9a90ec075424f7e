//! The build script of the crates that call proved functions. Each names its archive as the library that it `links`: NAME
//! is target/staticlib/libNAME.a of this repository, a copy of what `rt lib` writes in `crates/NAME_c`. No variable leads elsewhere.
//! Where the archive is not there the kit is asked for it, so that a fresh clone needs no step before `cargo run`.
use std::env;
use std::fs;
use std::io;
use std::path::Path;
use std::process::{Command, ExitCode, ExitStatus};

fn variable(name: &str) -> String {
    env::var(name).unwrap_or_else(|error| panic!("{name}: {error}"))
}

/// Copies an archive in one step, so that none is ever there in part.
fn put(made: &Path, archive: &Path) -> io::Result<()> {
    if let Some(folder) = archive.parent() {
        fs::create_dir_all(folder)?;
    }
    let part = archive.with_extension(std::process::id().to_string());
    fs::copy(made, &part)?;
    fs::rename(part, archive)
}

/// Has the kit prove the library and write its archive. What it says goes to where errors go, since cargo reads the rest.
fn build(library: &str, root: &Path, archive: &Path) {
    let folder = root.join(format!("crates/{library}_c"));
    let kit = Command::new("rt")
        .arg("lib")
        .current_dir(&folder)
        .stdout(io::stderr())
        .status();
    if !kit.as_ref().is_ok_and(ExitStatus::success) {
        println!("cargo::warning=`rt lib` in crates/{library}_c gave no archive: {kit:?}");
        return;
    }
    if let Err(error) = put(&folder.join(format!("out/lib{library}_c.a")), archive) {
        let shown = archive.display();
        println!("cargo::warning=no copy of the archive of crates/{library}_c at {shown}: {error}");
    }
}

fn main() -> ExitCode {
    let library = variable("CARGO_MANIFEST_LINKS");
    let crate_folder = variable("CARGO_MANIFEST_DIR");
    let root = Path::new(&crate_folder).join("../..");
    let folder = root.join("target/staticlib");
    let archive = folder.join(format!("lib{library}.a"));
    println!("cargo::rerun-if-changed={}", archive.display());
    if !archive.is_file() {
        build(&library, &root, &archive);
    }
    if !archive.is_file() {
        let shown = archive.display();
        println!(
            "cargo::error={shown} is not there: it is a copy of what `rt lib` writes in crates/{library}_c"
        );
        return ExitCode::FAILURE;
    }
    println!("cargo::rustc-link-search=native={}", folder.display());
    println!("cargo::rustc-link-lib=static={library}");
    ExitCode::SUCCESS
}
