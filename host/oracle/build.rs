//! Finds the reference's files, which are not part of the repository, and writes `OUT_DIR/reference.rs`: a `mod` item for
//! each, whose `#[path]` is the file itself. So they are compiled where they lie, unchanged, at the root of this crate,
//! where their own `use crate::reader::..` finds them. (An `include!` of a file would refuse its `//!` lines.)
use std::env;
use std::path::{Path, PathBuf};
use std::process::ExitCode;

mod reference;

const MODULES: [&str; 8] = [
    "reader",
    "names",
    "script",
    "zen",
    "scan",
    "cityhash",
    "toc",
    "container",
];

/// The reference is compiled as it is, so no lint is asked of it.
const AS_IT_IS: &str = "#[allow(warnings, clippy::all, clippy::pedantic, clippy::restriction)]";

fn variable(name: &str) -> PathBuf {
    PathBuf::from(env::var_os(name).unwrap_or_else(|| panic!("cargo sets {name}")))
}

/// The `mod` item for one file of the reference.
fn item(folder: &Path, module: &str) -> Result<String, String> {
    let file = folder.join(format!("tools/extract_component_classes/src/{module}.rs"));
    let shown = file.display();
    let found = file.canonicalize().map_err(|error| {
        format!("the reference's {shown} can't be had ({error}): set ZEN_REFERENCE to the absolute path of the folder with tools/")
    })?;
    let found = found.to_str().ok_or(format!("{shown} is not UTF-8"))?;
    println!("cargo::rerun-if-changed={found}");
    Ok(format!(
        "{AS_IT_IS}\n#[path = {found:?}]\npub mod {module};\n"
    ))
}

fn write_items() -> Result<(), String> {
    let named = env::var_os("ZEN_REFERENCE");
    let folder = reference::folder(named, &variable("CARGO_MANIFEST_DIR"))?;
    let items: Result<String, String> =
        MODULES.iter().map(|module| item(&folder, module)).collect();
    let out = variable("OUT_DIR").join("reference.rs");
    std::fs::write(&out, items?).map_err(|error| format!("{}: {error}", out.display()))
}

fn main() -> ExitCode {
    println!("cargo::rerun-if-env-changed=ZEN_REFERENCE");
    let Err(wrong) = write_items() else {
        return ExitCode::SUCCESS;
    };
    println!("cargo::error={wrong}");
    ExitCode::FAILURE
}
