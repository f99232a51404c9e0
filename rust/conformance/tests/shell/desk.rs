//! The program in a folder with files for it.

use std::collections::BTreeSet;
use std::ffi::OsStr;
use std::fs;
use std::path::PathBuf;
use std::process::Command;

use conformance::encode;
use conformance::shell::{Manner, Names, Said};
use conformance::trial;
use conformance::version::Version;

use crate::process::{self, file, folder, program, ran, Ran};

/// In numbers, for a person.
pub const PLAINLY: Manner = Manner {
    names: &Names::NUMBERS,
    json: false,
};

/// A folder in which the program is run, which goes with it: the gate wants no links in this
/// project's folder.
pub struct Desk {
    pub folder: PathBuf,
}

impl Drop for Desk {
    fn drop(&mut self) {
        let _ = fs::remove_dir_all(&self.folder);
    }
}

impl Desk {
    /// In an empty folder of this name.
    pub fn new(test: &str) -> Desk {
        let folder = folder(&format!("shell-{test}"));
        Desk { folder }
    }

    /// With the trial problem, its right plan and the list of that, each in a file of
    /// that name; and in `wrong` a plan that is not right.
    pub fn of_trial(test: &str, version: &Version) -> Desk {
        let desk = Desk::new(&format!("{test}-{}", version.byte));
        desk.put("problem", &trial::problem(version));
        desk.put("plan", &encode::plan(&[0, 1]));
        desk.put("wrong", &encode::plan(&[0]));
        desk.put("list", &trial::list(version));
        desk
    }

    pub fn put(&self, name: &str, bytes: &[u8]) {
        file(&self.folder, name, bytes);
    }

    #[track_caller]
    pub fn get(&self, name: &str) -> Vec<u8> {
        let path = self.folder.join(name);
        fs::read(&path).unwrap_or_else(|error| panic!("{}: {error}", path.display()))
    }

    /// The names of all that is in the folder.
    pub fn files(&self) -> BTreeSet<String> {
        let entries = fs::read_dir(&self.folder).expect("the folder can be read");
        entries
            .map(|entry| {
                let name = entry.expect("the folder can be read").file_name();
                name.into_string().expect("a name is text")
            })
            .collect()
    }

    /// The program with these words after its name.
    pub fn command<A: AsRef<OsStr>>(&self, words: &[A]) -> Command {
        let mut command = Command::new(program("shell"));
        command.args(words).current_dir(&self.folder);
        command
    }

    /// Runs a line of words with blanks between them.
    #[track_caller]
    pub fn run(&self, line: &str) -> Ran {
        ran(&mut self.command(&line_words(line)))
    }

    /// The same, where it speaks in text.
    #[track_caller]
    pub fn says(&self, line: &str) -> Said {
        said(self.run(line))
    }

    #[track_caller]
    pub fn expect(&self, line: &str, expected: &Said) {
        let said = self.says(line);
        assert_eq!(said, *expected, "{line}, in {}", self.folder.display());
    }

    /// It says nothing on standard output, one line on standard error that begins so,
    /// and ends with this status.
    #[track_caller]
    pub fn fails(&self, line: &str, status: i32, beginning: &str) -> String {
        let said = self.says(line);
        let place = format!("{line}, in {}", self.folder.display());
        assert_eq!(
            (said.status, &said.output[..]),
            (status, ""),
            "{place}: {said:?}"
        );
        one_line(&said.error, beginning, &place);
        said.error
    }
}

pub fn line_words(line: &str) -> Vec<&str> {
    line.split_whitespace().collect()
}

#[track_caller]
pub fn said(ran: Ran) -> Said {
    let Ran {
        status,
        output,
        error,
    } = ran;
    let output = String::from_utf8(output).expect("answers are in UTF-8");
    Said {
        status,
        output,
        error,
    }
}

/// A text is one line that begins so, after the name of the program.
#[track_caller]
pub fn one_line(text: &str, beginning: &str, place: &str) {
    let beginning = format!("larkhammock: {beginning}");
    let is_line = text.ends_with('\n') && text.lines().count() == 1;
    assert!(
        is_line && text.starts_with(&beginning) && text.len() > beginning.len() + 1,
        "{place}: expected a line that begins with {beginning:?}, got {text:?}"
    );
}

/// A project's file.
pub fn of_project(name: &str) -> PathBuf {
    process::project().join(name)
}
