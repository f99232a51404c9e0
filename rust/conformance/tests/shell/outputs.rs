//! What the program writes: its answers, and the files that it is told to write.

use std::fs::{self, Permissions};
use std::os::unix::fs::{symlink, PermissionsExt};
use std::path::Path;
use std::process::{Command, Stdio};

use conformance::encode;
use conformance::families::of_lines;
use conformance::oracle;
use conformance::shell::status::{NO, UNDECIDED, UNWRITTEN, USAGE, YES};
use conformance::shell::GRANT;
use conformance::version::Version;

use super::desk::{line_words, one_line, Desk, PLAINLY};
use crate::process::{closed_pipe, file, full_disk, program, ran, ran_into};

/// Each command where it answers, in both manners of speech.
const LINES: [&str; 16] = [
    "judge problem plan",
    "judge problem plan --json",
    "write problem plan -o written",
    "follow problem plan list",
    "run problem plan 010",
    "facts problem plan 010",
    "facts problem plan 010 --json",
    "search problem 2",
    "explain problem wrong",
    "explain problem wrong --json",
    "explain problem plan",
    "show problem",
    "show problem plan --json",
    "make text -o made",
    "--help",
    "--version",
];

/// Each command that writes a file, and what that file is.
const WRITERS: [(&str, &str); 4] = [
    ("write problem plan -o FILE", "list"),
    ("search problem 2 -o FILE", "plan"),
    ("make text -o FILE", "problem"),
    ("make text -o made --plan FILE", "plan"),
];

of_each_version! {
    a_full_disk_is_no_success,
    a_closed_pipe_is_no_success,
    files_on_a_full_disk,
    files_that_have_no_place,
    a_file_that_stood_there_is_replaced_whole,
    a_refused_list_leaves_what_stood_there,
    a_plan_that_is_not_found_is_not_written,
    a_file_that_grows_too_long_is_not_left,
    files_straight_to_standard_output,
    links_are_followed_and_permissions_stay,
    files_beside_it_stay_as_they_are,
    a_list_of_the_most_lines,
    nothing_is_written_over_what_is_read,
    not_by_another_path_either,
    what_is_no_file_may_be_both,
}

/// A folder with files for all commands.
fn desk(test: &str, version: &Version) -> Desk {
    let desk = Desk::of_trial(test, version);
    let text = PLAINLY.show(&desk.get("problem"), Some(&desk.get("plan")));
    desk.put("text", text.output.as_bytes());
    desk
}

#[track_caller]
fn is_not_said(desk: &Desk, line: &str, output: Stdio, words: &str) {
    let run = ran_into(output, &mut desk.command(&line_words(line)));
    let expected = format!("larkhammock: standard output: {words}\n");
    assert_eq!((run.status, run.error), (UNWRITTEN, expected), "{line}");
}

fn a_full_disk_is_no_success(version: &Version) {
    let desk = desk("full", version);
    for line in LINES {
        is_not_said(&desk, line, full_disk(), "no space is left");
    }
}

fn a_closed_pipe_is_no_success(version: &Version) {
    let desk = desk("closed-pipe", version);
    for line in LINES {
        is_not_said(&desk, line, closed_pipe(), "the pipe is closed");
    }
}

fn files_on_a_full_disk(version: &Version) {
    let desk = desk("full-files", version);
    for (line, role) in WRITERS {
        let line = line.replace("FILE", "/dev/full");
        let error = desk.fails(&line, UNWRITTEN, &format!("{role}: "));
        assert_eq!(
            error,
            format!("larkhammock: {role}: no space is left\n"),
            "{line}"
        );
    }
}

fn files_that_have_no_place(version: &Version) {
    let desk = desk("no-place", version);
    fs::create_dir(desk.folder.join("folder")).expect("a folder can be made");
    let files = desk.files();
    for (line, role) in WRITERS {
        let line = line.replace("-o made ", "-o /dev/null ");
        for (name, words) in [
            ("nowhere/file", "no such file"),
            ("folder", "it is a directory"),
            ("problem/below", ""),
        ] {
            let line = line.replace("FILE", name);
            let error = desk.fails(&line, UNWRITTEN, &format!("{role}: "));
            assert!(error.ends_with(&format!("{words}\n")), "{line}: {error}");
        }
    }
    assert_eq!(desk.files(), files);
    let inside = fs::read_dir(desk.folder.join("folder")).expect("it is still a folder");
    assert_eq!(inside.count(), 0);
}

fn a_file_that_stood_there_is_replaced_whole(version: &Version) {
    let desk = desk("replaced", version);
    let blocks = [
        ("write problem plan -o file", desk.get("list")),
        ("search problem 2 -o file", desk.get("plan")),
        ("make text -o file", desk.get("problem")),
        ("make text -o made --plan file", desk.get("plan")),
    ];
    desk.put("made", &[]);
    for former in [vec![], vec![7; 10_000]] {
        desk.put("file", &former);
        let files = desk.files();
        for (line, block) in &blocks {
            let said = desk.says(line);
            assert_eq!((said.status, &said.error[..]), (YES, ""), "{line}");
            assert!(desk.get("file") == *block, "{line}");
            assert_eq!(desk.files(), files, "{line}");
        }
    }
}

/// Whether a file stood there or not: it is as it was, and no other file is left.
fn a_refused_list_leaves_what_stood_there(version: &Version) {
    let desk = desk("refused", version);
    desk.put("unsound", &[version.byte, 0, 0]);
    desk.put("kept", b"this stood there");
    let files = desk.files();
    for (blocks, grant, status) in [
        ("problem wrong", GRANT, NO),
        ("problem plan", 1, UNDECIDED),
        ("problem plan", 0, UNDECIDED),
        ("unsound plan", GRANT, 3),
        ("problem unsound", GRANT, 3),
    ] {
        for name in ["kept", "new"] {
            let line = format!("write {blocks} -o {name} --grant {grant}");
            assert_eq!(desk.says(&line).status, status, "{line}");
            assert_eq!(desk.files(), files, "{line}");
            assert_eq!(desk.get("kept"), b"this stood there", "{line}");
        }
    }
}

fn a_plan_that_is_not_found_is_not_written(version: &Version) {
    let desk = desk("not-found", version);
    desk.put("kept", b"this stood there");
    let files = desk.files();
    for (arguments, status) in [("1", NO), ("2 --grant 20", UNDECIDED), ("5", 64)] {
        for name in ["kept", "new"] {
            let line = format!("search problem {arguments} -o {name}");
            assert_eq!(desk.says(&line).status, status, "{line}");
            assert_eq!(desk.files(), files, "{line}");
            assert_eq!(desk.get("kept"), b"this stood there", "{line}");
        }
    }
}

/// The system takes a part of the list and no more: nothing is left of it.
fn a_file_that_grows_too_long_is_not_left(version: &Version) {
    let desk = desk("cut", version);
    let problem = of_lines(*version, 12, 4_000);
    desk.put("problem", &encode::problem(&problem));
    desk.put("plan", &encode::plan(&[]));
    desk.put("kept", b"this stood there");
    let files = desk.files();
    for name in ["kept", "new"] {
        // files of one block at most, and no signal where one would grow longer
        let script = "trap '' XFSZ; ulimit -f 1; exec \"$@\"";
        let mut command = Command::new("bash");
        command
            .args(["-c", script, "bash"])
            .arg(program("shell"))
            .args(["write", "problem", "plan", "-o", name])
            .current_dir(&desk.folder);
        let run = ran(&mut command);
        assert_eq!(
            (run.status, run.output),
            (UNWRITTEN, vec![]),
            "{}",
            run.error
        );
        one_line(&run.error, "list: ", name);
        assert_eq!(desk.files(), files);
        assert_eq!(desk.get("kept"), b"this stood there");
    }
}

/// The block, and after it the answer.
fn files_straight_to_standard_output(version: &Version) {
    let desk = desk("straight", version);
    let list = desk.get("list");
    let run = desk.run("write problem plan -o /dev/stdout");
    let answer = format!("wrote {} bytes\n", list.len());
    assert_eq!(run.output, [list, answer.into_bytes()].concat());
    assert_eq!((run.status, &run.error[..]), (YES, ""));
}

/// What a link points to is replaced, by a file that as many may read and write.
fn links_are_followed_and_permissions_stay(version: &Version) {
    let desk = desk("links", version);
    let folder = desk.folder.join("elsewhere");
    fs::create_dir(&folder).expect("a folder can be made");
    let file = file(&folder, "kept", b"this stood there");
    fs::set_permissions(&file, Permissions::from_mode(0o640)).expect("it is the test's own");
    symlink("elsewhere/kept", desk.folder.join("link")).expect("a link can be made");
    let files = desk.files();
    assert_eq!(desk.says("write problem plan -o link").status, YES);
    assert_eq!(desk.files(), files);
    let target = fs::read_link(desk.folder.join("link")).expect("it is still a link");
    assert_eq!(target, Path::new("elsewhere/kept"));
    assert!(desk.get("elsewhere/kept") == desk.get("list"));
    let mode = fs::metadata(&file)
        .expect("it is there")
        .permissions()
        .mode();
    assert_eq!(mode & 0o777, 0o640);
    assert_eq!(fs::read_dir(&folder).expect("it is there").count(), 1);
}

/// Whatever names they have.
fn files_beside_it_stay_as_they_are(version: &Version) {
    let desk = desk("beside", version);
    let names = [
        "out.new", "out.new0", "out.new1", "out.tmp", "out~", ".out", "out.bak",
    ];
    for name in names {
        desk.put(name, name.as_bytes());
    }
    let files = desk.files();
    for (line, block) in [
        ("write problem plan -o out", desk.get("list")),
        ("make text -o out", desk.get("problem")),
    ] {
        assert_eq!(desk.says(line).status, YES, "{line}");
        assert!(desk.get("out") == block, "{line}");
        fs::remove_file(desk.folder.join("out")).expect("it was written");
        assert_eq!(desk.files(), files, "{line}");
        for name in names {
            assert_eq!(desk.get(name), name.as_bytes(), "{line}");
        }
    }
}

/// As many lines as a list may have, and one more.
fn a_list_of_the_most_lines(version: &Version) {
    let desk = desk("most-lines", version);
    let plan = encode::plan(&[]);
    desk.put("plan", &plan);
    for lines in [version.most_lines, version.most_lines + 1] {
        let problem = encode::problem(&of_lines(*version, 13, lines as u32));
        desk.put("problem", &problem);
        let expected = PLAINLY.write(&problem, &plan, GRANT);
        desk.expect("write problem plan -o written", &expected);
        if let Ok(list) = oracle::write_list(&problem, &plan, GRANT, usize::MAX) {
            assert!(desk.get("written") == list);
            desk.expect(
                "follow problem plan written",
                &PLAINLY.follow(&problem, &plan, &list),
            );
            fs::remove_file(desk.folder.join("written")).expect("a file can be removed");
        }
    }
    assert!(!desk.files().contains("written"));
}

/// Refused as a command line, with what each file is; and every file is as it was.
#[track_caller]
fn is_kept(desk: &Desk, line: &str, written: &str, other: &str) {
    let before: Vec<_> = desk.files().into_iter().collect();
    let bytes = |names: &[String]| -> Vec<_> {
        let read = |name: &String| fs::read(desk.folder.join(name)).ok();
        names.iter().map(read).collect()
    };
    let held = bytes(&before);
    let error = desk.fails(line, USAGE, written);
    let words = format!("larkhammock: {written}: it would be written over the {other}\n");
    assert_eq!(error, words, "{line}");
    let after: Vec<_> = desk.files().into_iter().collect();
    assert_eq!(after, before, "{line}");
    assert_eq!(bytes(&after), held, "{line}");
}

/// Each command that writes, and each file that it reads or writes beside.
const CLASHES: [(&str, &str, &str); 9] = [
    ("write problem plan -o problem", "list", "problem"),
    ("write problem plan -o plan", "list", "plan"),
    ("write problem plan -o names --names names", "list", "names"),
    ("search problem 2 -o problem", "plan", "problem"),
    ("search problem 2 -o names --names names", "plan", "names"),
    ("make text -o text", "problem", "text"),
    ("make text -o made --plan text", "plan", "text"),
    ("make text -o made --plan made", "problem", "plan"),
    ("make text -o plan --plan plan", "problem", "plan"),
];

fn with_names(test: &str, version: &Version) -> Desk {
    let desk = desk(test, version);
    desk.put("names", b"fact a\nfact b\nfact c\naction one\naction two\n");
    desk
}

fn nothing_is_written_over_what_is_read(version: &Version) {
    let desk = with_names("kept", version);
    for (line, written, other) in CLASHES {
        is_kept(&desk, line, written, other);
    }
}

/// Through links of both kinds, by other words for the same path, and by a link that leads to
/// nothing yet.
fn not_by_another_path_either(version: &Version) {
    let desk = with_names("paths", version);
    let at = |name: &str| desk.folder.join(name);
    symlink("plan", at("soft")).expect("a link can be made");
    symlink(desk.folder.join("soft"), at("softer")).expect("a link can be made");
    fs::hard_link(at("plan"), at("hard")).expect("a link can be made");
    symlink(".", at("here")).expect("a link can be made");
    symlink("nowhere", at("dangling")).expect("a link can be made");
    let folder = desk.folder.to_str().expect("a path is text");
    for path in [
        "soft",
        "softer",
        "hard",
        "./plan",
        "here/plan",
        "here/here/hard",
        &format!("{folder}/plan"),
    ] {
        is_kept(
            &desk,
            &format!("write problem plan -o {path}"),
            "list",
            "plan",
        );
        is_kept(
            &desk,
            &format!("write problem {path} -o plan"),
            "list",
            "plan",
        );
    }
    for (one, other) in [
        ("made", "./made"),
        ("here/made", "made"),
        (&format!("{folder}/made"), "made"),
        ("soft", "hard"),
        ("dangling", "nowhere"),
        ("nowhere", "dangling"),
    ] {
        let line = format!("make text -o {one} --plan {other}");
        is_kept(&desk, &line, "problem", "plan");
    }
}

/// A device loses nothing, and other files beside are no clash.
fn what_is_no_file_may_be_both(version: &Version) {
    let desk = with_names("devices", version);
    for folder in ["one", "another"] {
        fs::create_dir(desk.folder.join(folder)).expect("a folder can be made");
    }
    for line in [
        "make text -o /dev/null --plan /dev/null",
        "make text -o made --plan other",
        "make text -o other --plan made",
        "write problem plan -o list",
        "make text -o one/made --plan another/made",
        "make text -o another/new --plan one/new",
    ] {
        assert_eq!(desk.says(line).status, YES, "{line}");
    }
    assert_eq!(desk.get("other"), desk.get("problem"));
    assert_eq!(desk.get("made"), desk.get("plan"));
}
