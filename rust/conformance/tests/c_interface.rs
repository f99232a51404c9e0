//! The header and the archive as a C program meets them.

use std::collections::BTreeSet;
use std::ffi::OsStr;
use std::fs;
use std::path::{Path, PathBuf};
use std::process::Command;

use crate::gcc;
use conformance::version::Version;

fn root() -> PathBuf {
    Path::new(env!("CARGO_MANIFEST_DIR")).join("../..")
}

/// The first fault that the address or the undefined-behaviour sanitizer sees
/// ends the program.
const SANITIZED: [&str; 2] = ["-fsanitize=address,undefined", "-fno-sanitize-recover=all"];

/// What the program prints, compiled as C with these flags and linked with the
/// archive.
#[track_caller]
fn printed(source: &Path, name: &str, flags: &[&str]) -> String {
    printed_by(gcc::C, source, name, flags)
}

#[track_caller]
fn printed_by(compiler: [&str; 2], source: &Path, name: &str, flags: &[&str]) -> String {
    let program = Path::new(env!("CARGO_TARGET_TMPDIR")).join(name);
    let include = root().join("include");
    let mut arguments: Vec<&OsStr> = flags.iter().map(OsStr::new).collect();
    arguments.extend([
        "-I".as_ref(),
        include.as_os_str(),
        larkhammock::raw::ARCHIVE.as_ref(),
    ]);
    gcc::compile(compiler, source, &program, &arguments);

    let run = Command::new(&program)
        .output()
        .expect("the program can be started");
    let said = String::from_utf8_lossy(&run.stdout);
    let complained = String::from_utf8_lossy(&run.stderr);
    assert!(run.status.success(), "{said}{complained}");
    said.into_owned()
}

/// A C program of each version, with these flags and then with the sanitizers too.
#[track_caller]
fn prints(name: &str, version: &Version, said: &str) {
    let source = gcc::source(&format!("{name}.c"));
    let define = format!("-DVERSION={}", version.byte);
    let program = format!("{name}-{}", version.byte);
    assert_eq!(printed(&source, &program, &[&define]), said);
    let flags = [&[&define[..]], &SANITIZED[..]].concat();
    assert_eq!(
        printed(&source, &format!("{program}-sanitized"), &flags),
        said
    );
}

of_each_version! {
    a_c_program_gets_the_same_words,
    no_call_touches_a_byte_outside_its_slices,
}

fn a_c_program_gets_the_same_words(version: &Version) {
    prints("check", version, "43 answers as they should be\n");
}

/// Null and live pointers beside length 0, one byte, and buffers that end or
/// begin where nobody may touch a byte.
fn no_call_touches_a_byte_outside_its_slices(version: &Version) {
    // A longer list can be cut at more places.
    let answers = match version.byte {
        1 => 975,
        _ => 993,
    };
    let said = format!("{answers} answers as they should be\n");
    prints("slices", version, &said);
}

/// What a caller without a C library has to provide.
#[test]
fn the_archive_needs_memcpy_and_memset_alone() {
    let listed = Command::new("nm")
        .args(["--undefined-only", "--format=just-symbols"])
        .arg(larkhammock::raw::ARCHIVE)
        .output()
        .expect("nm can be started");
    assert!(listed.status.success());
    let listed = String::from_utf8(listed.stdout).expect("names are text");
    // The name of each object file ends with a colon.
    let needed: BTreeSet<&str> = listed
        .lines()
        .filter(|line| !line.is_empty() && !line.ends_with(':'))
        .collect();
    assert_eq!(needed, BTreeSet::from(["memcpy", "memset"]));
}

/// The header's own functions, which are for C++ too.
#[test]
fn facts_of_states_in_c_and_in_cpp() {
    let source = gcc::source("states.c");
    let said = printed(&source, "states", &[]);
    assert!(said.ends_with(" facts as they should be\n"), "{said}");
    assert_eq!(printed(&source, "states-sanitized", &SANITIZED), said);
    // The compiler goes by the name of the file.
    let copy = Path::new(env!("CARGO_TARGET_TMPDIR")).join("states.cpp");
    fs::copy(&source, &copy).expect("the folder for tests can be written");
    for standard in ["-std=c++11", "-std=c++20"] {
        let name = format!("states-{}", &standard[5..]);
        assert_eq!(printed_by(["g++", standard], &copy, &name, &[]), said);
    }
}

/// The README's call, on the library's small example.
#[test]
fn the_call_in_the_readme_is_c() {
    let readme = fs::read_to_string(root().join("README.md")).expect("there is a README");
    let (_, after) = readme.split_once("```c\n").expect("it has C in it");
    let (call, _) = after.split_once("```").expect("the C ends");
    let bytes = |block: &[u8]| format!("{block:?}").replace('[', "{").replace(']', "}");
    let source = format!(
        "#include <stdio.h>\n#include \"larkhammock.h\"\n\
         static const uint8_t problem[] = {};\nstatic const uint8_t plan[] = {};\n\
         enum {{ problem_len = sizeof problem, plan_len = sizeof plan }};\n\
         int main(void) {{\n{call}return 0;\n}}\n",
        bytes(larkhammock::example::PROBLEM),
        bytes(larkhammock::example::PLAN),
    );
    let file = Path::new(env!("CARGO_TARGET_TMPDIR")).join("readme.c");
    fs::write(&file, source).expect("the folder for tests can be written");
    assert_eq!(printed(&file, "readme", &[]), "right, 3 lines\n");
}
