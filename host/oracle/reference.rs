//! Where the reference is; shared by the build script and its test.
use std::ffi::OsString;
use std::path::{Path, PathBuf};

/// The folder with `tools/`: what `ZEN_REFERENCE` says, or `shared/docs/src` beside the repository where it is unset or
/// empty. A relative path is refused: cargo runs this in the crate's folder and doesn't tell which one its caller was in.
pub(crate) fn folder(variable: Option<OsString>, crate_folder: &Path) -> Result<PathBuf, String> {
    let Some(named) = variable.filter(|named| !named.is_empty()) else {
        return Ok(crate_folder.join("../../../shared/docs/src"));
    };
    let named = PathBuf::from(named);
    if named.is_relative() {
        let shown = named.display();
        return Err(format!(
            "ZEN_REFERENCE is the relative path {shown}, and cargo can't tell what it is relative to: give the absolute path, \
             for instance by ZEN_REFERENCE=\"$(realpath {shown})\""
        ));
    }
    Ok(named)
}
