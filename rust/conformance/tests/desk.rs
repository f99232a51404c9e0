//! The desk program itself, on real files.

use std::ffi::OsStr;
use std::fs::{self, File};
use std::path::{Path, PathBuf};
use std::process::Command;

use crate::cases;
use crate::gcc;
use crate::process::{self, closed_pipe, file, full_disk, program, project, ran, ran_into};
use conformance::desk::printed;
use conformance::encode;
use conformance::examples;
use conformance::oracle::Task;
use conformance::shell::status::{MALFORMED, NO, UNDECIDED, UNWRITTEN, USAGE, YES};
use conformance::shell::{words, Said};
use conformance::trial;
use conformance::version::{Version, VERSION_1};

const NO_PROBLEM: &str = "refused problem 11 at 0\n";
const NO_PLAN: &str = "refused plan 31 at 0\n";

fn desk<A: AsRef<OsStr>>(arguments: &[A]) -> Command {
    let mut command = Command::new(program("desk"));
    command.args(arguments);
    command
}

/// What the program says of two files that can be read.
fn said(problem: &[u8], plan: &[u8]) -> Said {
    let output = text(printed(problem, plan));
    match Task::parse(problem, plan) {
        Ok(_) => Said::plainly(status(&output), output),
        Err(refusal) => Said {
            status: MALFORMED,
            output,
            error: words::of_refusal(&refusal),
        },
    }
}

/// That of a verdict, by its first word.
fn status(page: &str) -> i32 {
    match page.split(' ').next() {
        Some("right") => YES,
        Some("wrong") => NO,
        Some("undecided") => UNDECIDED,
        other => panic!("{other:?} begins no verdict"),
    }
}

/// What it says where a file cannot be read, or none is named.
fn lacking(status: i32, output: &str, words: &[&str]) -> Said {
    let lines = words.iter().map(|words| format!("larkhammock: {words}\n"));
    Said {
        status,
        output: output.into(),
        error: lines.collect(),
    }
}

fn text(bytes: Vec<u8>) -> String {
    String::from_utf8(bytes).expect("the desk program prints ASCII")
}

#[track_caller]
fn says<A: AsRef<OsStr>>(name: &str, arguments: &[A], expected: &Said) {
    does(name, &mut desk(arguments), expected);
}

/// Holds all that the program says to this. Where a line on standard error stops at a
/// colon, the system's own words may follow.
#[track_caller]
fn does(name: &str, command: &mut Command, expected: &Said) {
    let run = ran(command);
    prints(name, &text(run.output), &expected.output);
    assert_eq!(run.status, expected.status, "{name}: {}", run.error);
    let (got, wanted) = (run.error.lines(), expected.error.lines());
    assert_eq!(
        got.clone().count(),
        wanted.clone().count(),
        "{name}: {}",
        run.error
    );
    for (got, wanted) in got.zip(wanted) {
        let open = wanted.ends_with(": ") && got.starts_with(wanted) && got != wanted;
        assert!(
            open || got == wanted,
            "{name}: expected {wanted:?}, got {got:?}"
        );
    }
}

#[track_caller]
fn prints(name: &str, got: &str, expected: &str) {
    if got == expected {
        return;
    }
    let same = got.bytes().zip(expected.bytes());
    let at = same.take_while(|(g, e)| g == e).count();
    let from = |text: &str| text[at..text.len().min(at + 200)].to_string();
    panic!(
        "{name}: from byte {at} on, expected {:?}, got {:?}",
        from(expected),
        from(got)
    );
}

/// A new folder of this test's own.
fn folder(name: &str) -> PathBuf {
    process::folder(&format!("desk-{name}"))
}

/// The name of a folder for a version.
fn named(name: &str, version: &Version) -> String {
    format!("{name}-{}", version.byte)
}

fn case(version: &Version, name: &str) -> cases::Case {
    let mut all = cases::all(version).into_iter();
    all.find(|case| case.name == name).expect("it is a case")
}

/// The program on two files whose reading goes as a test says.
struct Reads {
    library: PathBuf,
    arguments: [PathBuf; 2],
}

impl Reads {
    fn new(folder: &Path, problem: &[u8], plan: &[u8]) -> Reads {
        let library = folder.join("reads.so");
        let source = gcc::source("reads.c");
        gcc::compile(gcc::C, &source, &library, &["-shared", "-fPIC"]);
        let arguments = [file(folder, "problem", problem), file(folder, "plan", plan)];
        Reads { library, arguments }
    }

    /// A read gives at most so many bytes, and the one of this number fails:
    /// they are counted from 1, over both files.
    #[track_caller]
    fn says(&self, most: usize, fails: usize, expected: &Said) {
        let mut command = desk(&self.arguments);
        command
            .env("LD_PRELOAD", &self.library)
            .env("READ_MOST", most.to_string())
            .env("READ_FAILS", fails.to_string());
        let name = format!("{most} bytes a read, read {fails} fails");
        does(&name, &mut command, expected);
    }
}

of_each_version! {
    the_page_of_the_trial_problem,
    each_case,
    each_example,
    a_long_print_goes_to_a_file_too,
}

fn the_page_of_the_trial_problem(version: &Version) {
    let folder = folder(&named("trial", version));
    let problem = file(&folder, "problem", &trial::problem(version));
    let plan = file(&folder, "plan", &encode::plan(&[0, 1]));
    says(
        "P",
        &[problem, plan],
        &Said::plainly(YES, trial::PRINT.into()),
    );
}

fn each_case(version: &Version) {
    let folder = folder(&named("cases", version));
    for case in cases::all(version) {
        let problem = file(&folder, &format!("{} problem", case.name), &case.problem);
        let plan = file(&folder, &format!("{} plan", case.name), &case.plan);
        let expected = said(&case.problem, &case.plan);
        assert!(expected.output.starts_with(&case.says), "{}", case.name);
        says(&case.name, &[problem, plan], &expected);
    }
}

fn each_example(version: &Version) {
    let root = project().join("examples");
    for example in examples::all() {
        let at = |name: &str| root.join(example.folder).join(name);
        for trial in &example.trials {
            if trial.problem.1[0] != version.byte {
                continue;
            }
            let expected = Said {
                output: text(fs::read(at(trial.output)).expect("the print is there")),
                ..said(&trial.problem.1, &trial.plan.1)
            };
            let name = format!("{}/{}", example.folder, trial.output);
            says(&name, &[at(trial.problem.0), at(trial.plan.0)], &expected);
        }
    }
}

/// They count as empty files for what is printed, and the status tells them apart.
#[test]
fn names_that_are_missing() {
    let folder = folder("missing");
    let problem = file(&folder, "problem", &trial::problem(&VERSION_1));
    let unsound = file(&folder, "unsound", &[1, 0, 0]);
    let nowhere = folder.join("nowhere");
    let none = lacking(USAGE, NO_PROBLEM, &["problem: ", "plan: "]);
    says::<&str>("no name", &[], &none);
    let no_plan = lacking(USAGE, NO_PLAN, &["plan: "]);
    says("a problem only", &[&problem], &no_plan);
    let short = lacking(USAGE, "refused problem 11 at 3\n", &["plan: "]);
    says("an unsound problem only", &[&unsound], &short);
    // that it cannot be read is the first thing to be mended
    let unread = ["problem: no such file", "plan: "];
    let no_problem = lacking(UNWRITTEN, NO_PROBLEM, &unread);
    says("a missing problem only", &[&nowhere], &no_problem);
}

/// The page is that of the first two.
#[test]
fn names_that_are_left_over() {
    let folder = folder("left-over");
    let problem = file(&folder, "problem", &trial::problem(&VERSION_1));
    let plan = file(&folder, "plan", &encode::plan(&[0, 1]));
    let run = ran(&mut desk(&[&problem, &plan, &plan]));
    assert_eq!((run.status, &text(run.output)[..]), (USAGE, trial::PRINT));
    assert!(run.error.starts_with("larkhammock: "), "{}", run.error);
}

/// One that cannot be read counts as empty for what is printed, but the status and
/// standard error say what is so, and which of both it is.
#[test]
fn files_that_cannot_be_read() {
    let folder = folder("unreadable");
    let problem = file(&folder, "problem", &trial::problem(&VERSION_1));
    let plan = file(&folder, "plan", &encode::plan(&[0, 1]));
    let unsound = file(&folder, "unsound", &[1, 0, 0]);
    let nowhere = folder.join("nowhere");
    let below_a_file = problem.join("problem");
    let nameless = PathBuf::new();
    for (bad, words) in [
        (&nowhere, "no such file"),
        (&below_a_file, ""),
        (&folder, "it is a directory"),
        (&nameless, "no such file"),
    ] {
        let name = bad.display().to_string();
        let no_problem = format!("problem: {words}");
        let no_plan = format!("plan: {words}");
        let unread = |output: &str, words: &[&str]| lacking(UNWRITTEN, output, words);
        says(&name, &[bad, &plan], &unread(NO_PROBLEM, &[&no_problem]));
        says(&name, &[&problem, bad], &unread(NO_PLAN, &[&no_plan]));
        says(
            &name,
            &[bad, bad],
            &unread(NO_PROBLEM, &[&no_problem, &no_plan]),
        );
        let run = ran(&mut desk(&[&unsound, bad]));
        assert_eq!(run.status, UNWRITTEN, "{name}: an unsound problem");
        assert!(run.error.contains(&no_plan), "{name}: {}", run.error);
    }
}

#[test]
fn empty_files() {
    let folder = folder("empty");
    let problem = file(&folder, "problem", &trial::problem(&VERSION_1));
    let empty = file(&folder, "empty", &[]);
    let no_problem = "problem: it has no whole header (11), at byte 0";
    let no_plan = "plan: it has no whole header (31), at byte 0";
    says(
        "no problem",
        &[&empty, &problem],
        &lacking(MALFORMED, NO_PROBLEM, &[no_problem]),
    );
    says(
        "no plan",
        &[&problem, &empty],
        &lacking(MALFORMED, NO_PLAN, &[no_plan]),
    );
    says(
        "neither",
        &[&empty, &empty],
        &lacking(MALFORMED, NO_PROBLEM, &[no_problem]),
    );
}

/// A page that is not taken whole: short ones and the longest.
#[test]
fn a_page_that_cannot_be_printed() {
    let folder = folder("unprinted");
    let most = format!("{}-lines", VERSION_1.most_lines);
    for name in ["p-0-1", "p-0", &most] {
        let case = case(&VERSION_1, name);
        let problem = file(&folder, "problem", &case.problem);
        let plan = file(&folder, "plan", &case.plan);
        for (output, words) in [
            (full_disk(), "no space is left"),
            (closed_pipe(), "the pipe is closed"),
        ] {
            let run = ran_into(output, &mut desk(&[&problem, &plan]));
            let expected = format!("larkhammock: standard output: {words}\n");
            assert_eq!((run.status, run.error), (UNWRITTEN, expected), "{name}");
        }
    }
}

/// Each read in turn, the one that meets a file's end too: what came before it
/// counts for nothing. The last number is past them all, and nothing fails.
#[test]
fn a_read_that_fails() {
    let (problem, plan) = (trial::problem(&VERSION_1), encode::plan(&[0, 1]));
    let desk = Reads::new(&folder("a-read-that-fails"), &problem, &plan);
    for most in [1, 3, 7, 36, 37, 100] {
        let reads = |bytes: &[u8]| bytes.len().div_ceil(most) + 1;
        let expected = [
            vec![lacking(UNWRITTEN, NO_PROBLEM, &["problem: "]); reads(&problem)],
            vec![lacking(UNWRITTEN, NO_PLAN, &["plan: "]); reads(&plan)],
            vec![said(&problem, &plan)],
        ];
        for (at, expected) in expected.concat().iter().enumerate() {
            desk.says(most, at + 1, expected);
        }
    }
}

#[test]
fn short_reads_are_put_together() {
    let folder = folder("short-reads");
    for name in ["32768-bytes", "32769-bytes", "256-steps"] {
        let case = case(&VERSION_1, name);
        let desk = Reads::new(&folder, &case.problem, &case.plan);
        let expected = said(&case.problem, &case.plan);
        for most in [1, 255, 4_096, 32_768] {
            desk.says(most, 0, &expected);
        }
    }
}

/// The byte past the most that a block may have is the last that is read: a
/// read after it would fail here.
#[test]
fn a_long_file_is_read_no_further() {
    let folder = folder("no-further");
    let plan = encode::plan(&[]);
    let problem = |length: usize| Reads::new(&folder, &vec![1; length], &plan);
    // the read that fails is the first of the plan
    let over = "refused problem 10 at 32768\n";
    let over = lacking(UNWRITTEN, over, &["plan: "]);
    problem(200_000).says(32_769, 2, &over);
    problem(200_000).says(32_768, 3, &over);
    problem(32_769).says(32_769, 2, &over);
    let unread = lacking(UNWRITTEN, NO_PROBLEM, &["problem: "]);
    problem(32_768).says(32_769, 2, &unread);

    let trial = trial::problem(&VERSION_1);
    let plan = |length: usize| Reads::new(&folder, &trial, &vec![1; length]);
    let over = said(&trial, &[1; 262]);
    assert_eq!(over.output, "refused plan 30 at 261\n");
    plan(300).says(262, 4, &over);
    plan(262).says(262, 4, &over);
    let unread = lacking(UNWRITTEN, NO_PLAN, &["plan: "]);
    plan(261).says(262, 4, &unread);
}

/// A name from the working folder, and one file in both places.
#[test]
fn names_of_other_kinds() {
    let folder = folder("names");
    file(&folder, "problem", &trial::problem(&VERSION_1));
    let problem = trial::problem(&VERSION_1);
    let mut command = desk(&["problem", "./problem"]);
    let expected = said(&problem, &problem);
    does("twice", command.current_dir(&folder), &expected);
}

/// A pipe takes a part at a time, a file takes all: both get the same.
fn a_long_print_goes_to_a_file_too(version: &Version) {
    let folder = folder(&named("to-a-file", version));
    let most = version.most_lines;
    let case = case(version, &format!("{most}-lines"));
    let problem = file(&folder, "problem", &case.problem);
    let plan = file(&folder, "plan", &case.plan);
    let output = folder.join("output");
    let page = File::create(&output).expect("a file can be made");
    let run = ran_into(page.into(), &mut desk(&[problem, plan]));
    assert_eq!((run.status, &run.error[..]), (YES, ""));
    let expected = printed(&case.problem, &case.plan);
    assert!(fs::read(output).expect("it can be read") == expected);
}
