//! The tool as a test calls it, on the examples or on files of the test's own.

use std::fs;
use std::path::{Path, PathBuf};
use std::process::{Command, Output};

pub fn example(name: &str) -> String {
    let folder = Path::new(env!("CARGO_MANIFEST_DIR")).join("../examples");
    folder.join(name).to_string_lossy().into_owned()
}

/// A file of this test's own.
pub fn scratch(name: &str, bytes: &[u8]) -> String {
    let file = PathBuf::from(env!("CARGO_TARGET_TMPDIR")).join(name);
    fs::write(&file, bytes).expect("a scratch file");
    file.to_string_lossy().into_owned()
}

pub fn tool(arguments: &[&str]) -> Output {
    Command::new(env!("CARGO_BIN_EXE_samblokur")).args(arguments).output().expect("the tool runs")
}

pub fn said(arguments: &[&str]) -> String {
    String::from_utf8_lossy(&tool(arguments).stdout).into_owned()
}
