//! Programs that are run on real files.

use std::fs::{self, File};
use std::io;
use std::path::{Path, PathBuf};
use std::process::{Child, Command, Stdio};
use std::thread;
use std::time::Duration;

/// The folder of the whole project.
pub fn project() -> PathBuf {
    let root = Path::new(env!("CARGO_MANIFEST_DIR")).join("../..");
    root.canonicalize().expect("the project is there")
}

/// The program of a crate, which has to be built.
pub fn program(name: &str) -> PathBuf {
    let folder = project().join("crates").join(name);
    let program = folder.join("out").join(name);
    assert!(
        program.is_file(),
        "no program at {}: build it with `tools/prove {name}`",
        program.display()
    );
    program
}

/// A new folder of this test's own.
pub fn folder(name: &str) -> PathBuf {
    let folder = Path::new(env!("CARGO_TARGET_TMPDIR")).join(name);
    let _ = fs::remove_dir_all(&folder);
    fs::create_dir_all(&folder).expect("a folder can be made");
    folder
}

pub fn file(folder: &Path, name: &str, bytes: &[u8]) -> PathBuf {
    let path = folder.join(name);
    fs::write(&path, bytes).expect("a file can be written");
    path
}

/// What a program did.
#[derive(Debug)]
pub struct Ran {
    pub status: i32,
    pub output: Vec<u8>,
    pub error: String,
}

/// Runs a command to its end, with nothing to read. It must not be killed, and speak
/// to a person in text.
#[track_caller]
pub fn ran(command: &mut Command) -> Ran {
    ran_into(Stdio::piped(), command)
}

/// The same with its output to another place.
#[track_caller]
pub fn ran_into(output: Stdio, command: &mut Command) -> Ran {
    command
        .stdin(Stdio::null())
        .stdout(output)
        .stderr(Stdio::piped());
    let run = started(command).and_then(|child| child.wait_with_output());
    let run = run.unwrap_or_else(|error| panic!("{command:?} can't be run: {error}"));
    let error = String::from_utf8(run.stderr).expect("errors are told in UTF-8");
    let Some(status) = run.status.code() else {
        panic!("{command:?}: {}, {error}", run.status);
    };
    Ran {
        status,
        output: run.stdout,
        error,
    }
}

/// Starts a command. A program that a test has just written is busy for a moment where
/// another test, in a thread beside it, is starting one too: the other's child has the file
/// open until its own program begins. So a busy one is tried again, for five seconds.
pub fn started(command: &mut Command) -> io::Result<Child> {
    for _ in 0..500 {
        match command.spawn() {
            Err(error) if error.kind() == io::ErrorKind::ExecutableFileBusy => {
                thread::sleep(Duration::from_millis(10));
            }
            started => return started,
        }
    }
    command.spawn()
}

/// A file on a disk that has no room.
pub fn full_disk() -> Stdio {
    let full = File::options().write(true).open("/dev/full");
    full.expect("there is such a file").into()
}

/// A pipe that nobody reads any more.
pub fn closed_pipe() -> Stdio {
    let (reader, writer) = io::pipe().expect("a pipe can be made");
    drop(reader);
    writer.into()
}
