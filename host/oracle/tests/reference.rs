//! Where the build script looks for the reference.
use std::ffi::OsString;
use std::path::{Path, PathBuf};

#[path = "../reference.rs"]
mod reference;

fn folder(variable: Option<&str>) -> Result<PathBuf, String> {
    reference::folder(variable.map(OsString::from), Path::new("/r/host/oracle"))
}

#[test]
fn beside_the_repository_unless_named() {
    let beside = Ok(PathBuf::from("/r/host/oracle/../../../shared/docs/src"));
    assert_eq!(folder(None), beside);
    assert_eq!(folder(Some("")), beside);
}

#[test]
fn where_an_absolute_path_leads() {
    assert_eq!(folder(Some("/some/src")), Ok(PathBuf::from("/some/src")));
}

#[test]
fn a_relative_path_is_refused() {
    for relative in ["src", "./src", "../shared/docs/src"] {
        let refused = folder(Some(relative)).expect_err("a relative path");
        assert!(refused.contains(relative), "{refused}");
        assert!(refused.contains("absolute path"), "{refused}");
    }
}
