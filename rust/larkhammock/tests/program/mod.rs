//! An example program of this crate.

use std::env;
use std::path::{Path, PathBuf};
use std::process::{Command, Output};

/// It is built with the tests of this crate, and stands beside their folder.
fn program(name: &str) -> PathBuf {
    let test = env::current_exe().expect("a test knows its file");
    let folder = test
        .ancestors()
        .nth(2)
        .expect("it is in a folder of its own");
    folder.join("examples").join(name)
}

/// Runs it in the folder `rust`.
pub fn run(name: &str, arguments: &[&str]) -> Output {
    Command::new(program(name))
        .current_dir(Path::new(env!("CARGO_MANIFEST_DIR")).join(".."))
        .args(arguments)
        .output()
        .expect("the program runs")
}

/// Holds what it prints to this line.
#[track_caller]
pub fn prints(name: &str, arguments: &[&str], line: &str) {
    let output = run(name, arguments);
    assert_eq!(String::from_utf8_lossy(&output.stdout), format!("{line}\n"));
    assert!(output.stderr.is_empty() && output.status.success());
}

/// It ends with a word on what is wrong with its arguments, and prints nothing.
#[track_caller]
pub fn refuses_arguments(name: &str, arguments: &[&str]) {
    let output = run(name, arguments);
    assert!(output.stdout.is_empty() && !output.stderr.is_empty());
    assert!(!output.status.success());
}
