//! The script `tools/prove`, in a project of its own: in the place of the compiler stands a
//! script that notes which crate it is to prove.

use std::env;
use std::fs::{self, Permissions};
use std::os::unix::fs::PermissionsExt;
use std::path::{Path, PathBuf};
use std::process::{self, Command, Stdio};

use super::desk::{of_project, one_line, said};
use crate::process::{file, ran, started, Ran};

/// Notes the crate, fails where it is the one that is to fail, and makes what is asked for.
const RATTLE: &str = "#!/bin/sh
while [ $# -gt 0 ]; do
    case $1 in
        --crate-name) name=$2 ;;
        -o) made=$2 ;;
    esac
    shift
done
echo \"$name\" >> \"$NOTES\"
if [ \"$name\" = \"$FAILS\" ]; then
    echo 'src/lib.rt:1:1: error: the goal is open'
    exit 1
fi
case $made in
    *.rlib) mkdir \"$made\" ;;
    *) : > \"$made\" ;;
esac
";

const LINK: &str = "#!/bin/sh
while [ $# -gt 0 ]; do
    [ \"$1\" != -o ] || made=$2
    shift
done
printf '#!/bin/sh\\n' > \"$made\"
chmod +x \"$made\"
";

/// Two libraries stand on a third, and a program on both; one more crate is asked for by nobody.
const CRATES: &str = "low:\nleft: low\nright: low # as left\ntop: left right\nother: low\n";

struct Project {
    folder: PathBuf,
}

impl Drop for Project {
    fn drop(&mut self) {
        let _ = fs::remove_dir_all(&self.folder);
    }
}

fn make(folder: &Path, name: &str, text: &str) {
    fs::create_dir_all(folder).expect("a folder can be made");
    let path = file(folder, name, text.as_bytes());
    fs::set_permissions(path, Permissions::from_mode(0o755)).expect("it can be made to run");
}

impl Project {
    fn new(test: &str) -> Project {
        let name = format!("larkhammock-{}-proving-{test}", process::id());
        let folder = env::temp_dir().join(name);
        let project = Project { folder };
        let kit = project.folder.join("kit");
        make(&kit.join("bin"), "rattle", RATTLE);
        make(&kit.join("bin"), "rattle-link", LINK);
        make(&kit, "KIT-ID", "a kit");
        let doc = format!("#!/bin/sh\necho '{}/START-HERE.md'\n", kit.display());
        make(&project.folder.join("path"), "rt", &doc);
        for name in ["low", "left", "right", "other"] {
            make(&project.sources(name), "lib.rt", "// as it is");
        }
        make(&project.sources("top"), "main.rt", "// as it is");
        make(&project.root(), "crates.txt", CRATES);
        let tool = fs::read_to_string(of_project("tools/prove")).expect("it is there");
        make(&project.root().join("tools"), "prove", &tool);
        project
    }

    fn root(&self) -> PathBuf {
        self.folder.join("the project")
    }

    fn sources(&self, name: &str) -> PathBuf {
        self.root().join("crates").join(name).join("src")
    }

    fn command(&self, words: &[&str]) -> Command {
        let path = env::var("PATH").expect("there is a path");
        let first = self.folder.join("path");
        let mut command = Command::new(self.root().join("tools/prove"));
        command
            .args(words)
            .env("PATH", format!("{}:{path}", first.display()))
            .env("NOTES", self.folder.join("notes"))
            .env("FAILS", "");
        command
    }

    fn prove(&self, words: &[&str]) -> Ran {
        ran(&mut self.command(words))
    }

    /// The crates that were proved since this was asked last, in turn.
    fn proved(&self) -> Vec<String> {
        let notes = self.folder.join("notes");
        let said = fs::read_to_string(&notes).unwrap_or_default();
        let _ = fs::remove_file(notes);
        said.lines().map(String::from).collect()
    }

    fn has_program(&self) -> bool {
        self.root().join("crates/top/out/top").is_file()
    }
}

fn sorted(mut names: Vec<String>) -> Vec<String> {
    names.sort();
    names
}

#[test]
fn each_crate_after_those_below_and_no_other() {
    let project = Project::new("order");
    let said = said(project.prove(&["top"]));
    assert_eq!((said.status, &said.output[..]), (0, ""), "{}", said.error);
    assert!(said.error.contains("4 of 4 proved"), "{}", said.error);
    let proved = project.proved();
    assert_eq!(
        (&proved[0][..], &proved[3][..]),
        ("low", "top"),
        "{proved:?}"
    );
    assert_eq!(sorted(proved), ["left", "low", "right", "top"]);
    assert!(project.has_program());
}

/// What was proved stays proved while all that it was made from is the same.
#[test]
fn only_what_changed_and_what_stands_on_it() {
    let project = Project::new("again");
    assert_eq!(project.prove(&["top"]).status, 0);
    project.proved();
    let same = said(project.prove(&["top"]));
    assert_eq!((same.status, &same.error[..]), (0, ""));
    make(&project.sources("left"), "lib.rt", "// as it is");
    assert_eq!(project.prove(&["top"]).status, 0);
    assert_eq!(project.proved(), [""; 0]);
    make(&project.sources("left"), "lib.rt", "// changed");
    assert_eq!(project.prove(&["top"]).status, 0);
    assert_eq!(project.proved(), ["left", "top"]);
    make(&project.sources("other"), "lib.rt", "// changed");
    assert_eq!(project.prove(&["top"]).status, 0);
    assert_eq!(project.proved(), [""; 0]);
    let crates = CRATES.replace("right: low", "right:");
    make(&project.root(), "crates.txt", &crates);
    assert_eq!(project.prove(&["top", "other"]).status, 0);
    assert_eq!(sorted(project.proved()), ["other", "right", "top"]);
    let program = project.root().join("crates/top/out/top");
    fs::remove_file(program).expect("a program can be removed");
    assert_eq!(project.prove(&["top"]).status, 0);
    assert_eq!(project.proved(), ["top"]);
    assert!(project.has_program());
}

#[test]
fn a_crate_that_is_not_proved() {
    let project = Project::new("fails");
    let said = said(ran(project.command(&["top"]).env("FAILS", "left")));
    assert_eq!((said.status, &said.output[..]), (1, ""), "{}", said.error);
    assert!(said.error.contains("the goal is open"), "{}", said.error);
    let last = said.error.lines().last().unwrap_or_default();
    assert!(
        last.starts_with("larkhammock: the build failed: left"),
        "{last}"
    );
    assert!(!project.has_program());
    project.proved();
    assert_eq!(project.prove(&["top"]).status, 0);
    assert!(project.proved().contains(&"left".into()));
    assert!(project.has_program());
}

#[test]
fn two_at_once() {
    let project = Project::new("two");
    let start = || {
        let mut command = project.command(&["top"]);
        let quiet = command.stdout(Stdio::null()).stderr(Stdio::null());
        started(quiet).expect("it can be run")
    };
    for mut child in [start(), start(), start()] {
        assert!(child.wait().expect("it ends").success());
    }
    assert_eq!(sorted(project.proved()), ["left", "low", "right", "top"]);
}

/// Where `rt` fails it says so, and proves nothing.
#[test]
fn without_the_kit() {
    let project = Project::new("kit");
    make(&project.folder.join("path"), "rt", "#!/bin/sh\nexit 1\n");
    let said = said(project.prove(&["top"]));
    assert_eq!((said.status, &said.output[..]), (4, ""), "{}", said.error);
    one_line(&said.error, "the command rt", "tools/prove");
    assert_eq!(project.proved(), [""; 0]);
}

#[test]
fn words_that_name_no_crate() {
    let project = Project::new("words");
    for words in [&[][..], &["bottom"], &["--bottom", "top"], &["--times"]] {
        let said = said(project.prove(words));
        assert_eq!((said.status, &said.output[..]), (64, ""), "{words:?}");
        assert!(said.error.contains("tools/prove"), "{}", said.error);
    }
    assert_eq!(project.proved(), [""; 0]);
}
