//! Files that are missing, empty, too long, unreadable, or no files at all.

use std::fs::{self, File, Permissions};
use std::io::Write;
use std::os::unix::fs::PermissionsExt;
use std::process::Stdio;

use conformance::shell::status::{MALFORMED, UNWRITTEN, YES};
use conformance::shell::{Said, GRANT};
use conformance::trial;
use conformance::version::{Version, MOST_PLAN_BYTES, MOST_PROBLEM_BYTES};

use super::desk::{Desk, PLAINLY};

const MOST_TEXT_BYTES: usize = 9 << 20;
const MOST_NAMES_BYTES: usize = 1 << 18;

/// Each command with a word in place of one of its files, and what that file is.
const LINES: [(&str, &str); 19] = [
    ("judge FILE plan", "problem"),
    ("judge problem FILE", "plan"),
    ("write FILE plan -o written", "problem"),
    ("write problem FILE -o written", "plan"),
    ("follow FILE plan list", "problem"),
    ("follow problem FILE list", "plan"),
    ("follow problem plan FILE", "list"),
    ("run FILE plan 010", "problem"),
    ("run problem FILE 010", "plan"),
    ("facts FILE plan 010", "problem"),
    ("facts problem FILE 010", "plan"),
    ("search FILE 2 -o written", "problem"),
    ("explain FILE wrong", "problem"),
    ("explain problem FILE", "plan"),
    ("show FILE", "problem"),
    ("show problem FILE", "plan"),
    ("make FILE -o written", "text"),
    ("judge problem plan --names FILE", "names"),
    ("show problem --names FILE", "names"),
];

of_each_version! {
    missing_files,
    a_missing_file_goes_before_what_is_wrong_in_another,
    folders_in_place_of_files,
    files_below_files,
    files_that_none_may_read,
    empty_blocks,
    problems_that_are_too_long,
    plans_that_are_too_long,
    lists_that_are_too_long,
    texts_and_names_of_a_mebibyte,
    texts_and_names_that_are_too_long,
    empty_texts_and_names,
    a_file_can_be_a_pipe,
}

/// Nothing comes of a file that cannot be read, and the words say which it is and why.
#[track_caller]
fn cannot_be_read(desk: &Desk, name: &str, words: &str) {
    let files = desk.files();
    for (line, role) in LINES {
        let line = line.replace("FILE", name);
        desk.expect(
            &line,
            &Said::failing(UNWRITTEN, &format!("{role}: {words}")),
        );
        let json = format!("{line} --json");
        desk.expect(
            &json,
            &Said::failing(UNWRITTEN, &format!("{role}: {words}")),
        );
    }
    assert_eq!(desk.files(), files);
}

fn missing_files(version: &Version) {
    let desk = Desk::of_trial("missing", version);
    cannot_be_read(&desk, "nowhere", "no such file");
    cannot_be_read(&desk, "nowhere/problem", "no such file");
}

/// Every file is read before anything that one says is looked at, the names too.
fn a_missing_file_goes_before_what_is_wrong_in_another(version: &Version) {
    let desk = Desk::of_trial("missing-first", version);
    for name in ["problem", "plan", "list", "wrong"] {
        desk.put(name, b"no block");
    }
    desk.put("empty", b"");
    desk.put("long", &vec![b'#'; MOST_NAMES_BYTES + 1]);
    for (line, role) in LINES {
        let line = line.replace("FILE", "nowhere");
        let takes_no_more_names = line.contains("--names") || line.starts_with("make");
        for names in ["empty", "long"] {
            let line = if takes_no_more_names {
                line.clone()
            } else {
                format!("{line} --names {names}")
            };
            desk.expect(
                &line,
                &Said::failing(UNWRITTEN, &format!("{role}: no such file")),
            );
        }
    }
}

fn folders_in_place_of_files(version: &Version) {
    let desk = Desk::of_trial("folders", version);
    fs::create_dir(desk.folder.join("folder")).expect("a folder can be made");
    cannot_be_read(&desk, "folder", "it is a directory");
    cannot_be_read(&desk, ".", "it is a directory");
}

fn files_below_files(version: &Version) {
    let desk = Desk::of_trial("below-files", version);
    for (line, role) in LINES {
        let line = line.replace("FILE", "problem/below");
        desk.fails(&line, UNWRITTEN, &format!("{role}: "));
    }
}

/// Some users may read all files: then a folder stands in for one that none may read.
fn files_that_none_may_read(version: &Version) {
    let desk = Desk::of_trial("closed", version);
    desk.put("closed", &trial::problem(version));
    let closed = desk.folder.join("closed");
    fs::set_permissions(&closed, Permissions::from_mode(0o000)).expect("a file can be closed");
    let words = match File::open(&closed) {
        Err(_) => "permission denied",
        Ok(_) => {
            fs::remove_file(&closed).expect("a file can be removed");
            fs::create_dir(&closed).expect("a folder can be made");
            "it is a directory"
        }
    };
    cannot_be_read(&desk, "closed", words);
}

/// Each command with an empty problem, plan or list: a block that has no header.
fn empty_blocks(version: &Version) {
    let desk = Desk::of_trial("empty", version);
    desk.put("empty", &[]);
    let refusal = |line: &str, number: u64| {
        let role = ["problem", "plan", "list"][(number / 30) as usize];
        let said = Said {
            status: MALFORMED,
            output: format!("refused {role} {number} at 0\n"),
            error: format!("larkhammock: {role}: it has no whole header ({number}), at byte 0\n"),
        };
        desk.expect(&line.replace("FILE", "empty"), &said);
    };
    for (line, role) in LINES {
        match role {
            "problem" => refusal(line, 11),
            "plan" => refusal(line, 31),
            "list" => refusal(line, 61),
            _ => {}
        }
    }
}

/// As long as a block may be, one byte more, and a mebibyte.
fn lengths(most: usize) -> [usize; 3] {
    [most, most + 1, 1 << 20]
}

fn problems_that_are_too_long(version: &Version) {
    let desk = Desk::of_trial("long-problems", version);
    let (plan, list) = (desk.get("plan"), desk.get("list"));
    for length in lengths(MOST_PROBLEM_BYTES) {
        let long = vec![version.byte; length];
        desk.put("long", &long);
        desk.expect("judge long plan", &PLAINLY.judge(&long, &plan, GRANT));
        desk.expect(
            "write long plan -o written",
            &PLAINLY.write(&long, &plan, GRANT),
        );
        desk.expect(
            "follow long plan list",
            &PLAINLY.follow(&long, &plan, &list),
        );
        desk.expect("run long plan 010", &PLAINLY.run(&long, &plan, 0));
        desk.expect("facts long plan 010", &PLAINLY.facts(&long, &plan, 0));
        desk.expect("search long 1", &PLAINLY.search(&long, 1, GRANT));
        desk.expect("explain long plan", &PLAINLY.explain(&long, &plan, GRANT));
        desk.expect("show long", &PLAINLY.show(&long, None));
    }
}

fn plans_that_are_too_long(version: &Version) {
    let desk = Desk::of_trial("long-plans", version);
    let (problem, list) = (desk.get("problem"), desk.get("list"));
    for length in lengths(MOST_PLAN_BYTES) {
        let long = vec![1; length];
        desk.put("long", &long);
        desk.expect("judge problem long", &PLAINLY.judge(&problem, &long, GRANT));
        desk.expect(
            "write problem long -o written",
            &PLAINLY.write(&problem, &long, GRANT),
        );
        desk.expect(
            "follow problem long list",
            &PLAINLY.follow(&problem, &long, &list),
        );
        desk.expect("run problem long 010", &PLAINLY.run(&problem, &long, 0));
        desk.expect("facts problem long 010", &PLAINLY.facts(&problem, &long, 0));
        desk.expect(
            "explain problem long",
            &PLAINLY.explain(&problem, &long, GRANT),
        );
        desk.expect("show problem long", &PLAINLY.show(&problem, Some(&long)));
    }
}

/// The longest list differs by version: one byte more is refused as too long in both.
fn lists_that_are_too_long(version: &Version) {
    let desk = Desk::of_trial("long-lists", version);
    let (problem, plan) = (desk.get("problem"), desk.get("plan"));
    for length in lengths(version.most_bytes()) {
        let long = vec![version.byte; length];
        desk.put("long", &long);
        desk.expect(
            "follow problem plan long",
            &PLAINLY.follow(&problem, &plan, &long),
        );
    }
}

fn texts_and_names_of_a_mebibyte(version: &Version) {
    let desk = Desk::of_trial("long-texts", version);
    for letter in [b'x', b'#', b' ', b'('] {
        desk.put("long", &vec![letter; 1 << 20]);
        desk.fails("make long -o written", MALFORMED, "text: ");
        desk.fails("judge problem plan --names long", MALFORMED, "names: ");
    }
    assert!(!desk.files().contains("written"));
}

/// As long as they may be with the help of a comment, and one byte more.
fn texts_and_names_that_are_too_long(version: &Version) {
    let desk = Desk::of_trial("longest-texts", version);
    let problem = desk.get("problem");
    let shown = desk.says("show problem").output;
    let padded = |length: usize| {
        let comment = "#".repeat(length - shown.len());
        shown.clone() + &comment
    };
    let judged = desk.says("judge problem plan");
    for (most, line) in [
        (MOST_TEXT_BYTES, "make long -o made"),
        (MOST_NAMES_BYTES, "judge problem plan --names long"),
    ] {
        desk.put("long", padded(most).as_bytes());
        let said = desk.says(line);
        assert_eq!((said.status, &said.error[..]), (YES, ""), "{line}");
        let role = if line.starts_with("make") {
            "text"
        } else {
            "names"
        };
        desk.put("long", padded(most + 1).as_bytes());
        desk.fails(line, MALFORMED, &format!("{role}: "));
    }
    desk.put("long", padded(MOST_NAMES_BYTES).as_bytes());
    desk.expect("judge problem plan --names long", &judged);
    assert!(desk.get("made") == problem);
}

fn empty_texts_and_names(version: &Version) {
    let desk = Desk::of_trial("empty-texts", version);
    for nothing in ["", "\n\n", "# nothing", " \t\r\n"] {
        desk.put("empty", nothing.as_bytes());
        desk.fails("make empty -o written", MALFORMED, "text: line ");
        desk.fails("judge problem plan --names empty", MALFORMED, "names: ");
    }
    assert!(!desk.files().contains("written"));
}

/// A pipe gives its bytes once, and a part at a time.
fn a_file_can_be_a_pipe(version: &Version) {
    let desk = Desk::of_trial("pipes", version);
    let (problem, plan) = (desk.get("problem"), desk.get("plan"));
    let (first, second) = problem.split_at(20);
    let mut command = desk.command(&["judge", "/dev/stdin", "plan"]);
    command.stdin(Stdio::piped()).stdout(Stdio::piped());
    let mut child = command.spawn().expect("the program can be started");
    let mut pipe = child.stdin.take().expect("it reads from a pipe");
    for part in [first, second] {
        pipe.write_all(part).expect("the pipe takes it");
    }
    drop(pipe);
    let run = child.wait_with_output().expect("the program ends");
    let expected = PLAINLY.judge(&problem, &plan, GRANT);
    assert_eq!(run.status.code(), Some(expected.status));
    assert_eq!(String::from_utf8_lossy(&run.stdout), expected.output);
}
