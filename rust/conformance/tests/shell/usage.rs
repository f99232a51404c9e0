//! Command lines: help, and what is wrong with them.

use std::ffi::{OsStr, OsString};
use std::os::unix::ffi::OsStringExt;

use conformance::encode;
use conformance::families::idle;
use conformance::shell::status::{USAGE, YES};
use conformance::version::{Version, VERSION_1};

use super::desk::{one_line, said, Desk, PLAINLY};
use crate::process::ran;

const COMMANDS: [&str; 9] = [
    "judge", "write", "follow", "run", "facts", "search", "explain", "show", "make",
];

/// A line of each command that is right, with no word in it that could be left out.
const LINES: [&str; 9] = [
    "judge problem plan",
    "write problem plan -o written",
    "follow problem plan list",
    "run problem plan 010",
    "facts problem plan 010",
    "search problem 2",
    "explain problem plan",
    "show problem",
    "make text -o made",
];

of_each_version! {
    grants,
    lengths_of_a_search,
    states_as_marks,
    as_many_marks_as_a_problem_can_have,
}

fn desk(test: &str) -> Desk {
    let desk = Desk::of_trial(test, &VERSION_1);
    let text = PLAINLY.show(&desk.get("problem"), None).output;
    desk.put("text", text.as_bytes());
    desk
}

/// Nothing on standard output, nothing written, and standard error says these words.
#[track_caller]
fn is_refused(desk: &Desk, line: &str, words: &[&str]) {
    let files = desk.files();
    let said = desk.says(line);
    assert_eq!(
        (said.status, &said.output[..]),
        (USAGE, ""),
        "{line}: {said:?}"
    );
    assert!(!said.error.is_empty(), "{line}");
    for word in words {
        assert!(
            said.error.contains(word),
            "{line}: no {word:?} in {}",
            said.error
        );
    }
    assert_eq!(desk.files(), files, "{line}");
}

#[track_caller]
fn is_told(desk: &Desk, line: &str, words: &[&str]) {
    let said = desk.says(line);
    assert_eq!(
        (said.status, &said.error[..]),
        (YES, ""),
        "{line}: {said:?}"
    );
    for word in words {
        assert!(
            said.output.contains(word),
            "{line}: no {word:?} in {}",
            said.output
        );
    }
}

#[test]
fn help_for_all_commands() {
    let desk = desk("help");
    for line in ["--help", "-h", "help"] {
        is_told(&desk, line, &COMMANDS);
        is_told(&desk, line, &["Usage:", "--help", "--version"]);
    }
}

#[test]
fn help_for_each_command() {
    let desk = desk("help-for-each");
    for command in COMMANDS {
        for line in [
            format!("{command} --help"),
            format!("{command} -h"),
            format!("help {command}"),
            format!("{command} problem --help"),
        ] {
            is_told(&desk, &line, &["Usage:", command, "--help"]);
        }
    }
    is_told(
        &desk,
        "judge --help",
        &["PROBLEM", "PLAN", "--grant", "--names", "--json"],
    );
    is_told(
        &desk,
        "write --help",
        &["PROBLEM", "PLAN", "--output", "--grant"],
    );
    is_told(&desk, "follow --help", &["PROBLEM", "PLAN", "LIST"]);
    is_told(&desk, "run --help", &["PROBLEM", "PLAN", "STATE"]);
    is_told(&desk, "facts --help", &["PROBLEM", "PLAN", "STATE"]);
    is_told(
        &desk,
        "search --help",
        &["PROBLEM", "LONGEST", "--grant", "--output"],
    );
    is_told(&desk, "explain --help", &["PROBLEM", "PLAN", "--grant"]);
    is_told(&desk, "show --help", &["PROBLEM", "PLAN", "--names"]);
    is_told(&desk, "make --help", &["TEXT", "--output", "--plan"]);
}

#[test]
fn the_version_is_one_line() {
    let desk = desk("version");
    for line in ["--version", "-V"] {
        let said = desk.says(line);
        assert_eq!((said.status, &said.error[..]), (YES, ""), "{line}");
        let number = said
            .output
            .strip_prefix("larkhammock ")
            .expect("its name first");
        let number = number.strip_suffix('\n').expect("a line");
        let is_number = |part: &str| part.parse::<u32>().is_ok();
        assert!(number.split('.').all(is_number), "{line}: {number:?}");
    }
}

#[test]
fn no_command_and_unknown_ones() {
    let desk = desk("unknown");
    is_refused(&desk, "", &[]);
    is_refused(&desk, "--json", &[]);
    for line in [
        "nothing",
        "nothing problem plan",
        "Judge problem plan",
        "judges",
    ] {
        let word = line.split(' ').next().expect("a word");
        is_refused(&desk, line, &[word]);
    }
    is_refused(&desk, "judge problem plan --nothing", &["--nothing"]);
    is_refused(&desk, "judge problem plan -x", &["-x"]);
}

/// Each line without its last word, and so on to none; and with one word more.
#[test]
fn words_that_are_missing_or_left_over() {
    let desk = desk("missing-words");
    for line in LINES {
        let mut rest = line;
        while let Some((fewer, _)) = rest.rsplit_once(' ') {
            // the plan to show may be left out, and a flag without its value is another fault
            rest = fewer;
            is_refused(&desk, rest, &[]);
        }
        let most = match line {
            "show problem" => "show problem plan".into(),
            _ => line.to_string(),
        };
        is_refused(&desk, &format!("{most} leftover"), &["leftover"]);
    }
}

#[test]
fn flags_without_their_values_and_flags_twice() {
    let desk = desk("flags");
    for line in LINES {
        is_refused(&desk, &format!("{line} --names"), &["--names"]);
        is_refused(&desk, &format!("{line} --json=yes"), &["--json"]);
    }
    is_refused(&desk, "judge problem plan --grant", &["--grant"]);
    is_refused(
        &desk,
        "judge problem plan --grant 1 --grant 2",
        &["--grant"],
    );
    is_refused(&desk, "write problem plan -o", &["--output"]);
    is_refused(&desk, "write problem plan", &["--output"]);
    is_refused(&desk, "make text", &["--output"]);
    is_refused(&desk, "make text -o made --plan", &["--plan"]);
}

/// Not all commands take all flags.
#[test]
fn flags_of_other_commands() {
    let desk = desk("other-flags");
    for line in [
        "follow problem plan list",
        "run problem plan 010",
        "facts problem plan 010",
        "show problem",
    ] {
        is_refused(&desk, &format!("{line} --grant 9"), &["--grant"]);
        is_refused(&desk, &format!("{line} -o made"), &["-o"]);
    }
    is_refused(&desk, "judge problem plan -o made", &["-o"]);
    is_refused(&desk, "judge problem plan --plan made", &["--plan"]);
}

/// Flags may stand before the files, and after `--` nothing is a flag.
#[test]
fn flags_in_other_places() {
    let desk = desk("places");
    let expected = desk.says("judge problem plan --grant 5");
    assert_eq!(
        expected,
        PLAINLY.judge(&desk.get("problem"), &desk.get("plan"), 5)
    );
    for line in [
        "judge --grant 5 problem plan",
        "judge problem --grant=5 plan",
        "judge --grant 5 -- problem plan",
    ] {
        desk.expect(line, &expected);
    }
    desk.put("--json", &desk.get("problem"));
    desk.expect("judge --grant 5 -- --json plan", &expected);
}

/// Numbers of 64 bits, in each command that takes one.
fn grants(version: &Version) {
    let desk = Desk::of_trial("grants", version);
    let (problem, plan) = (desk.get("problem"), desk.get("plan"));
    for grant in [0, 1, 4, 5, 1 << 63, u64::MAX] {
        let line = |command: &str| format!("{command} --grant {grant}");
        desk.expect(
            &line("judge problem plan"),
            &PLAINLY.judge(&problem, &plan, grant),
        );
        desk.expect(
            &line("explain problem plan"),
            &PLAINLY.explain(&problem, &plan, grant),
        );
        desk.expect(
            &line("search problem 2"),
            &PLAINLY.search(&problem, 2, grant),
        );
        let written = PLAINLY.write(&problem, &plan, grant);
        desk.expect(&line("write problem plan -o written"), &written);
    }
    for grant in [
        "no",
        "",
        "1.5",
        "0x10",
        "1_000",
        "18446744073709551616",
        "１",
    ] {
        for line in [
            "judge problem plan",
            "write problem plan -o no",
            "search problem 2",
            "explain problem plan",
        ] {
            is_refused(&desk, &format!("{line} --grant={grant}"), &["--grant"]);
        }
    }
    is_refused(&desk, "judge problem plan --grant=-1", &["--grant"]);
}

fn lengths_of_a_search(version: &Version) {
    let desk = Desk::of_trial("lengths", version);
    let problem = desk.get("problem");
    for longest in [0, 1, 2, 3, 4, 5, 255, 256, 1 << 32, u64::MAX] {
        let expected = PLAINLY.search(&problem, longest, 1_000_000);
        desk.expect(&format!("search problem {longest}"), &expected);
    }
    for longest in ["two", "1.0", "18446744073709551616", "3x"] {
        is_refused(&desk, &format!("search problem {longest}"), &[longest]);
    }
    is_refused(&desk, "search problem -1", &["-1"]);
}

/// One mark a fact, and no other letter: standard error says how many are wanted.
fn states_as_marks(version: &Version) {
    let desk = Desk::of_trial("marks", version);
    let (problem, plan) = (desk.get("problem"), desk.get("plan"));
    for (marks, facts) in [("000", [false, false, false]), ("011", [false, true, true])] {
        let state = version.number(&facts);
        let run = PLAINLY.run(&problem, &plan, state);
        desk.expect(&format!("run problem plan {marks}"), &run);
        let facts = PLAINLY.facts(&problem, &plan, state);
        desk.expect(&format!("facts problem plan {marks}"), &facts);
    }
    for marks in [
        "0", "01", "0100", "01?", "012", "0 1", "abc", "01０", "", "+10", "01\n",
    ] {
        for command in ["run", "facts"] {
            let mut command = desk.command(&[command, "problem", "plan", marks]);
            let said = said(ran(&mut command));
            assert_eq!((said.status, &said.output[..]), (USAGE, ""), "{marks:?}");
            one_line(&said.error, "", marks);
            assert!(said.error.contains('3'), "{marks:?}: {}", said.error);
        }
    }
}

fn as_many_marks_as_a_problem_can_have(version: &Version) {
    let desk = Desk::new(&format!("many-marks-{}", version.byte));
    let facts = version.most_facts;
    let (problem, plan) = (encode::problem(&idle(*version, facts)), encode::plan(&[]));
    desk.put("problem", &problem);
    desk.put("plan", &plan);
    for values in [vec![true; facts.into()], vec![false; facts.into()]] {
        let state = version.number(&values);
        let marks: String = values.iter().map(|v| if *v { '1' } else { '0' }).collect();
        desk.expect(
            &format!("run problem plan {marks}"),
            &PLAINLY.run(&problem, &plan, state),
        );
        desk.expect(
            &format!("facts problem plan {marks}"),
            &PLAINLY.facts(&problem, &plan, state),
        );
        is_refused(&desk, &format!("run problem plan {marks}0"), &[]);
        is_refused(&desk, &format!("run problem plan {}", &marks[1..]), &[]);
    }
}

/// The library opens no file by a name that is not text: that is said.
#[test]
fn words_that_are_no_text() {
    let desk = desk("no-text");
    let strange = OsString::from_vec(vec![b'p', 0xff]);
    let lines: [&[&OsStr]; 3] = [
        &["judge".as_ref(), &strange, "plan".as_ref()],
        &["judge".as_ref(), "problem".as_ref(), &strange],
        &[&strange],
    ];
    for line in lines {
        let said = said(ran(&mut desk.command(line)));
        assert_eq!((said.status, &said.output[..]), (USAGE, ""), "{line:?}");
        one_line(&said.error, "", "a word that is no text");
    }
}

/// Names with blanks and letters of any kind are names of files too.
#[test]
fn names_of_files_with_blanks() {
    let desk = desk("blanks");
    let (problem, plan) = (desk.get("problem"), desk.get("plan"));
    desk.put("the problem", &problem);
    desk.put("plan \"ä\"\n#", &plan);
    let mut command = desk.command(&["judge", "the problem", "plan \"ä\"\n#"]);
    assert_eq!(
        said(ran(&mut command)),
        PLAINLY.judge(&problem, &plan, 1_000_000)
    );
    let line = ["write", "the problem", "plan \"ä\"\n#", "-o", "a new list"];
    let said = said(ran(&mut desk.command(&line)));
    assert_eq!(said, PLAINLY.write(&problem, &plan, 1_000_000));
    assert_eq!(desk.get("a new list"), desk.get("list"));
}
