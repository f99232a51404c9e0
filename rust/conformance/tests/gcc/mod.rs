//! C that a test compiles as it runs.

use std::ffi::OsStr;
use std::path::{Path, PathBuf};
use std::process::Command;

/// The file of this name among the C of the tests.
pub fn source(name: &str) -> PathBuf {
    Path::new(env!("CARGO_MANIFEST_DIR"))
        .join("tests/c")
        .join(name)
}

/// What a source is compiled by.
pub const C: [&str; 2] = ["gcc", "-std=c99"];

/// Compiles with every warning an error, and with these arguments after the
/// source.
#[track_caller]
pub fn compile<A: AsRef<OsStr>>(
    [compiler, standard]: [&str; 2],
    source: &Path,
    output: &Path,
    arguments: &[A],
) {
    let compiled = Command::new(compiler)
        .args([standard, "-Wall", "-Wextra", "-Wpedantic", "-Werror"])
        .arg("-o")
        .arg(output)
        .arg(source)
        .args(arguments)
        .output()
        .unwrap_or_else(|error| panic!("{compiler} can't be started: {error}"));
    let said = String::from_utf8_lossy(&compiled.stderr);
    assert!(compiled.status.success(), "{said}");
}
