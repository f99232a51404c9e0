//! The script `larkhammock`, in a project of its own: the real programs, and in the
//! place of `tools/prove` a script that notes what it is asked to build.

use std::env;
use std::ffi::{OsStr, OsString};
use std::fs::{self, File, Permissions};
use std::os::unix::fs::{symlink, PermissionsExt};
use std::path::{Path, PathBuf};
use std::process::{self, Command};
use std::time::{Duration, SystemTime};

use conformance::encode;
use conformance::shell::status::{UNWRITTEN, USAGE, YES};
use conformance::shell::{Said, GRANT};
use conformance::trial;
use conformance::version::VERSION_1;

use super::desk::{of_project, said, PLAINLY};
use crate::process::{file, program, ran};

/// In the place of `tools/prove`: builds the program that is named, unless it is told to
/// fail.
const PROVE: &str = "#!/bin/sh
echo \"$1\" >> \"$NOTES\"
[ -z \"$FAILS\" ] || { echo 'the goal is open' >&2; exit 1; }
cd \"$(dirname \"$0\")/../crates/$1\"
mkdir -p out && cp \"$BUILT/$1\" \"out/$1\"
";

const PROGRAMS: [&str; 2] = ["desk", "shell"];

/// Two programs that are built, and the folders around them, which go with it. They are not in
/// this project's folder, where the gate would take their sources for its own.
struct Project {
    folder: PathBuf,
}

impl Drop for Project {
    fn drop(&mut self) {
        let _ = fs::remove_dir_all(&self.folder);
    }
}

impl Project {
    fn new(test: &str) -> Project {
        let name = format!("larkhammock-{}-{test}", process::id());
        let folder = env::temp_dir().join(name);
        fs::create_dir(&folder).expect("a folder can be made");
        let project = Project { folder };
        let root = project.root();
        for name in PROGRAMS {
            let home = root.join("crates").join(name);
            fs::create_dir_all(home.join("src")).expect("a folder can be made");
            fs::create_dir_all(home.join("out")).expect("a folder can be made");
            fs::create_dir_all(project.folder.join("built")).expect("a folder can be made");
            let main = file(&home.join("src"), "main.rt", b"// as it is");
            let built = project.folder.join("built").join(name);
            fs::copy(program(name), &built).expect("a program can be copied");
            fs::copy(&built, project.program(name)).expect("a program can be copied");
            set_age(&main, 3_600);
            set_age(&project.program(name), 60);
        }
        set_age(&file(&root, "crates.txt", b"desk:\nshell:\n"), 3_600);
        fs::copy(of_project("larkhammock"), root.join("larkhammock")).expect("it is there");
        let tools = root.join("tools");
        fs::create_dir(&tools).expect("a folder can be made");
        fs::copy(of_project("tools/help.txt"), tools.join("help.txt")).expect("it is there");
        runs(&file(&tools, "prove", PROVE.as_bytes()));
        let grammar = root.join("crates/grammar/src");
        fs::create_dir_all(&grammar).expect("a folder can be made");
        let grammar = grammar.join("lib.rt");
        fs::copy(of_project("crates/grammar/src/lib.rt"), &grammar).expect("it is there");
        set_age(&grammar, 3_600);
        project.put_rt();
        let desk = project.folder.join("desk");
        fs::create_dir(&desk).expect("a folder can be made");
        file(&desk, "problem", &trial::problem(&VERSION_1));
        file(&desk, "plan", &encode::plan(&[0, 1]));
        file(&desk, "wrong", &encode::plan(&[0]));
        project
    }

    /// The name has a blank, as those of people's folders have.
    fn root(&self) -> PathBuf {
        let root = self.folder.join("the project");
        fs::create_dir_all(&root).expect("a folder can be made");
        root
    }

    fn program(&self, name: &str) -> PathBuf {
        self.root().join("crates").join(name).join("out").join(name)
    }

    fn put_rt(&self) {
        let bin = self.folder.join("bin");
        fs::create_dir(&bin).expect("a folder can be made");
        runs(&file(&bin, "rt", b"#!/bin/sh\n"));
    }

    /// The wrapper by this name, run in the folder with the files.
    fn command(&self, wrapper: &Path, words: &[&str]) -> Command {
        let mut command = Command::new(wrapper);
        command
            .args(words)
            .current_dir(self.folder.join("desk"))
            .env("PATH", path([self.folder.join("bin")]))
            .env("NOTES", self.folder.join("notes"))
            .env("BUILT", self.folder.join("built"))
            .env("FAILS", "");
        command
    }

    fn wrapper(&self) -> PathBuf {
        self.root().join("larkhammock")
    }

    #[track_caller]
    fn says(&self, words: &[&str]) -> Said {
        said(ran(&mut self.command(&self.wrapper(), words)))
    }

    /// The crates that were built, in turn.
    fn built(&self) -> Vec<String> {
        let notes = fs::read_to_string(self.folder.join("notes")).unwrap_or_default();
        notes.lines().map(String::from).collect()
    }
}

/// A file that can be run.
fn runs(path: &Path) {
    fs::set_permissions(path, Permissions::from_mode(0o755)).expect("it can be made to run");
}

/// This many seconds ago.
fn set_age(path: &Path, seconds: u64) {
    let time = SystemTime::now() - Duration::from_secs(seconds);
    let file = File::options()
        .append(true)
        .open(path)
        .expect("it is there");
    file.set_modified(time).expect("a time can be set");
}

/// The folders in which programs are looked for: these, and those that have no `rt`.
fn path<const N: usize>(first: [PathBuf; N]) -> OsString {
    let all = env::var_os("PATH").expect("there is a path");
    let without = env::split_paths(&all).filter(|folder| !folder.join("rt").exists());
    env::join_paths(first.into_iter().chain(without)).expect("they can be joined")
}

fn verdict(plan: &[u8]) -> Said {
    PLAINLY.judge(&trial::problem(&VERSION_1), &encode::plan(plan), GRANT)
}

/// The desk program's output, and that of the command.
#[track_caller]
fn works(project: &Project, wrapper: &Path) {
    let desk = said(ran(&mut project.command(wrapper, &["problem", "plan"])));
    assert_eq!(desk, Said::plainly(0, trial::PRINT.into()));
    let judged = said(ran(
        &mut project.command(wrapper, &["judge", "problem", "wrong"])
    ));
    assert_eq!(judged, verdict(&[0]));
    assert_eq!(project.built(), [""; 0]);
}

#[test]
fn by_its_own_name() {
    let project = Project::new("own-name");
    works(&project, &project.wrapper());
}

/// By a path from the working folder.
#[test]
fn from_other_folders() {
    let project = Project::new("folders");
    works(&project, Path::new("../the project/larkhammock"));
    let mut command = project.command(
        Path::new("./larkhammock"),
        &["judge", "../desk/problem", "../desk/wrong"],
    );
    assert_eq!(
        said(ran(command.current_dir(project.root()))),
        verdict(&[0])
    );
    let words = ["larkhammock", "judge", "../desk/problem", "../desk/wrong"];
    let mut command = project.command(Path::new("sh"), &words);
    assert_eq!(
        said(ran(command.current_dir(project.root()))),
        verdict(&[0])
    );
}

#[test]
fn through_symbolic_links() {
    let project = Project::new("links");
    let links = project.folder.join("some links");
    fs::create_dir(&links).expect("a folder can be made");
    let link = |target: &Path, name: &str| {
        symlink(target, links.join(name)).expect("a link can be made");
        links.join(name)
    };
    works(&project, &link(&project.wrapper(), "absolute"));
    works(
        &project,
        &link(Path::new("../the project/larkhammock"), "relative"),
    );
    works(&project, &link(Path::new("relative"), "to a link"));
    works(&project, &link(&links.join("to a link"), "to that"));
    works(&project, Path::new("../some links/relative"));
    symlink("some links", project.folder.join("folder")).expect("a link can be made");
    works(&project, Path::new("../folder/to that"));
}

/// A link to it in a folder where programs are looked for.
#[test]
fn as_a_command_of_the_shell() {
    let project = Project::new("path");
    let link = project.folder.join("bin/lark");
    symlink("../the project/larkhammock", link).expect("a link can be made");
    let mut command = project.command(Path::new("sh"), &["-c", "lark judge problem wrong"]);
    assert_eq!(said(ran(&mut command)), verdict(&[0]));
}

#[test]
fn each_command_goes_to_the_shells_program() {
    let project = Project::new("commands");
    let root = program("shell");
    for words in [
        &["judge", "problem", "wrong"][..],
        &["write", "problem", "plan", "-o", "written"],
        &["follow", "problem", "plan", "written"],
        &["run", "problem", "wrong", "010"],
        &["facts", "problem", "plan", "010"],
        &["search", "problem", "1"],
        &["explain", "problem", "wrong"],
        &["show", "problem"],
        &["make", "problem", "-o", "made"],
        &["help"],
        &["--help"],
        &["--version"],
        &["--nothing"],
        &["judge"],
    ] {
        let direct = said(ran(&mut project.command(&root, words)));
        assert_eq!(project.says(words), direct, "{words:?}");
    }
    assert_eq!(project.built(), [""; 0]);
}

/// A file that is there is a problem, also where its name is like a command's.
#[test]
fn files_go_to_the_desk_program() {
    let project = Project::new("desk");
    let root = program("desk");
    for words in [
        &["problem"][..],
        &["problem", "plan"],
        &["problem", "wrong"],
        &["problem", "judge"],
        &["problem", "nowhere"],
        &["./problem", "plan"],
        &[".", "plan"],
    ] {
        let direct = said(ran(&mut project.command(&root, words)));
        assert_eq!(project.says(words), direct, "{words:?}");
    }
    assert_eq!(project.built(), [""; 0]);
}

/// No word is a question for help, and a word that is neither a command nor a file is told
/// with the command that is like it.
#[test]
fn words_that_ask_nothing() {
    let project = Project::new("nothing");
    let help = said(ran(&mut project.command(&program("shell"), &["--help"])));
    assert_eq!(project.says(&[]), help);
    for (words, similar) in [
        (&["judges", "plan"][..], "judge"),
        (&["folow"], "follow"),
        (&["nowhere", "plan"], "help"),
        (&["", "plan"], "help"),
    ] {
        let said = project.says(words);
        assert_eq!((said.status, &said.output[..]), (USAGE, ""), "{words:?}");
        assert!(said.error.contains(similar), "{words:?}: {}", said.error);
    }
    assert_eq!(project.built(), [""; 0]);
}

/// The same where nothing is built: no proof is begun for such words.
#[test]
fn words_that_ask_nothing_begin_no_proof() {
    let project = Project::new("unbuilt");
    for name in PROGRAMS {
        fs::remove_file(project.program(name)).expect("a program can be removed");
    }
    let shell = program("shell");
    let help = said(ran(&mut project.command(&shell, &["--help"])));
    for words in [&[][..], &["help"], &["--help"], &["-h"]] {
        let said = project.says(words);
        assert_eq!((said.status, said.output), (YES, help.output.clone()));
        assert!(said.error.contains("not built"), "{}", said.error);
    }
    let version = said(ran(&mut project.command(&shell, &["--version"])));
    assert_eq!(project.says(&["--version"]), version);
    assert_eq!(project.says(&["-V"]), version);
    for words in [&["judges", "plan"][..], &["nowhere"], &["--nothing"], &[""]] {
        let said = project.says(words);
        assert_eq!((said.status, &said.output[..]), (USAGE, ""), "{words:?}");
        assert!(said.error.contains("help"), "{words:?}: {}", said.error);
    }
    assert_eq!(project.built(), [""; 0]);
}

#[test]
fn names_with_blanks() {
    let project = Project::new("blanks");
    let desk = project.folder.join("desk");
    file(
        &desk,
        "a problem  with \"blanks\" *",
        &trial::problem(&VERSION_1),
    );
    file(&desk, " a plan\n", &encode::plan(&[0]));
    let names = ["a problem  with \"blanks\" *", " a plan\n"];
    assert_eq!(project.says(&["judge", names[0], names[1]]), verdict(&[0]));
    assert_eq!(project.says(&names).output, verdict(&[0]).output);
}

/// What is built is only what is asked for, and only where it is missing or older than
/// a source.
#[test]
fn it_builds_what_is_asked_for_and_no_more() {
    let project = Project::new("builds");
    for name in PROGRAMS {
        fs::remove_file(project.program(name)).expect("a program can be removed");
    }
    let judge = ["judge", "problem", "wrong"];
    let built = project.says(&judge);
    assert_eq!((built.status, built.output), (1, verdict(&[0]).output));
    assert_eq!(project.built(), ["shell"]);
    assert_eq!(project.says(&judge), verdict(&[0]));
    assert_eq!(project.built(), ["shell"]);
    assert!(!project.program("desk").exists());

    let built = project.says(&["problem", "plan"]);
    assert_eq!((built.status, &built.output[..]), (0, trial::PRINT));
    assert_eq!(project.built(), ["shell", "desk"]);
    assert_eq!(project.says(&["problem", "plan"]).error, "");
    assert_eq!(project.built(), ["shell", "desk"]);
}

#[test]
fn it_builds_again_what_is_older_than_a_source() {
    for source in ["crates/shell/src/main.rt", "crates.txt"] {
        let project = Project::new("older");
        set_age(&project.root().join(source), 30);
        let built = project.says(&["judge", "problem", "wrong"]);
        assert_eq!(
            (built.status, built.output),
            (1, verdict(&[0]).output),
            "{source}"
        );
        assert_eq!(project.built(), ["shell"], "{source}");
    }
}

/// What is built needs no `rt`; what is not says that it does.
#[test]
fn without_rt() {
    let project = Project::new("without-rt");
    fs::remove_file(project.folder.join("bin/rt")).expect("a file can be removed");
    works(&project, &project.wrapper());
    for (name, words) in [
        ("shell", &["judge", "problem", "plan"][..]),
        ("desk", &["problem", "plan"]),
    ] {
        fs::remove_file(project.program(name)).expect("a program can be removed");
        let said = project.says(words);
        assert_eq!((said.status, &said.output[..]), (UNWRITTEN, ""), "{said:?}");
        let says_so = said.error.lines().any(|line| {
            line.starts_with("larkhammock: ")
                && line
                    .split_whitespace()
                    .any(|word| word.trim_matches('`') == "rt")
        });
        assert!(says_so, "{}", said.error);
    }
}

#[test]
fn where_the_build_fails() {
    let project = Project::new("fails");
    for (name, words) in [
        ("shell", &["judge", "problem", "plan"][..]),
        ("desk", &["problem", "plan"]),
    ] {
        fs::remove_file(project.program(name)).expect("a program can be removed");
        let mut command = project.command(&project.wrapper(), words);
        let said = said(ran(command.env("FAILS", OsStr::new("yes"))));
        assert_eq!((said.status, &said.output[..]), (UNWRITTEN, ""), "{said:?}");
        assert!(said.error.contains("the goal is open"), "{}", said.error);
    }
}
