//! The text that the desk program is held to: by hand, and from the library.

use std::collections::BTreeMap;
use std::fs;
use std::iter::repeat;
use std::path::Path;
use std::process::Command;

use crate::cases;
use conformance::desk::{printed, GRANT};
use conformance::examples;
use conformance::trial;
use conformance::version::Version;
use larkhammock::{Lines, Outcome, Part, Refusal, Verdict, LONGEST_LIST};

/// The text as a desk over the real library would print it.
fn by_library(problem: &[u8], plan: &[u8]) -> Result<String, Refusal> {
    let facts = larkhammock::read_problem(problem)?.facts as usize;
    Ok(match larkhammock::judge(problem, plan, GRANT)? {
        Verdict::Undecided { visits } => format!("undecided visited {visits}\n"),
        Verdict::Wrong {
            state,
            outcome,
            visits,
        } => match outcome {
            Outcome::Blocked { step, part } => {
                let part = match part {
                    Part::Member(member) => format!("member {member}"),
                    Part::Fact(fact) => format!("fact {fact}"),
                    other => panic!("{other:?}"),
                };
                format!("wrong {state} at step {step} {part} visited {visits}\n")
            }
            outcome => {
                assert_eq!(outcome, Outcome::Missed);
                format!("wrong {state} at end visited {visits}\n")
            }
        },
        Verdict::Right { lines, visits } => {
            let mut text = format!("right lines {lines} visited {visits}\n");
            let mut out = vec![0; LONGEST_LIST];
            match larkhammock::write_list(problem, plan, GRANT, &mut out) {
                Err(refusal) => {
                    assert_eq!((refusal.number, refusal.place), (52, lines));
                    text += "list too long\n";
                }
                Ok(length) => {
                    for line in Lines::new(&out[..length]) {
                        text += if line.kind == 0 {
                            "no-start "
                        } else {
                            "carries "
                        };
                        let marks = line.fixed().map(|value| if value { '1' } else { '0' });
                        text.extend(marks.chain(repeat('?')).take(facts));
                        text += "\n";
                    }
                }
            }
            text
        }
        other => panic!("{other:?}"),
    })
}

#[track_caller]
fn agrees(name: &str, problem: &[u8], plan: &[u8]) {
    let text = String::from_utf8(printed(problem, plan)).expect("it is ASCII");
    let library = by_library(problem, plan).unwrap_or_else(|refusal| {
        let block = if refusal.number < 30 {
            "problem"
        } else {
            "plan"
        };
        format!("refused {block} {} at {}\n", refusal.number, refusal.place)
    });
    assert!(text == library, "{name}: {text:.400}{library:.400}");
}

of_each_version! {
    the_page_of_the_trial_problem,
    each_case_says_what_it_should,
    the_library_says_the_same,
    each_refusal_of_a_problem_or_a_plan_is_there,
}

fn the_page_of_the_trial_problem(version: &Version) {
    let text = printed(
        &trial::problem(version),
        &trial::with_plan(version, &[0, 1]).plan,
    );
    assert_eq!(String::from_utf8_lossy(&text), trial::PRINT);
}

fn each_case_says_what_it_should(version: &Version) {
    let one_too_many = match version.byte {
        1 => "8192",
        _ => "6554",
    };
    for case in cases::all(version) {
        let text = String::from_utf8(printed(&case.problem, &case.plan)).expect("it is ASCII");
        let mut lines = text.lines();
        assert_eq!(lines.next(), Some(&case.says[..]), "{}", case.name);
        let more: Vec<&str> = lines.collect();
        let stated = case.says.strip_prefix("right lines ");
        match stated.and_then(|rest| rest.split(' ').next()) {
            None => assert!(more.is_empty(), "{}", case.name),
            Some(count) if count == one_too_many => {
                assert_eq!(more, ["list too long"], "{}", case.name);
            }
            Some(count) => assert_eq!(more.len().to_string(), count, "{}", case.name),
        }
    }
}

fn the_library_says_the_same(version: &Version) {
    for case in cases::all(version) {
        agrees(&case.name, &case.problem, &case.plan);
    }
    for example in examples::all() {
        for trial in example.trials {
            let (problem, plan) = (&trial.problem.1, &trial.plan.1);
            if problem[0] == version.byte {
                agrees(example.folder, problem, plan);
            }
        }
    }
}

fn each_refusal_of_a_problem_or_a_plan_is_there(version: &Version) {
    let cases = cases::all(version);
    let says = |start: &str| cases.iter().any(|case| case.says.starts_with(start));
    for number in 10..=25 {
        assert!(says(&format!("refused problem {number} at ")), "{number}");
    }
    for number in 30..=34 {
        assert!(says(&format!("refused plan {number} at ")), "{number}");
    }
}

/// Every file below a folder, by its name from there.
fn files_below(folder: &Path) -> BTreeMap<String, Vec<u8>> {
    let mut files = BTreeMap::new();
    for entry in fs::read_dir(folder).expect("the folder can be read") {
        let path = entry.expect("an entry can be read").path();
        let name = path.file_name().expect("an entry has a name");
        let name = name.to_str().expect("names are ASCII").to_string();
        if path.is_dir() {
            let inner = files_below(&path).into_iter();
            files.extend(inner.map(|(inner, bytes)| (format!("{name}/{inner}"), bytes)));
        } else {
            files.insert(name, fs::read(&path).expect("a file can be read"));
        }
    }
    files
}

#[test]
fn the_examples_are_as_they_would_be_written() {
    let there = Path::new(env!("CARGO_MANIFEST_DIR")).join("../../examples");
    let again = Path::new(env!("CARGO_TARGET_TMPDIR")).join("examples-again");
    // What an earlier run left would be taken for written.
    let _ = fs::remove_dir_all(&again);
    let made = Command::new(env!("CARGO_BIN_EXE_make-examples"))
        .arg(&again)
        .status()
        .expect("the program can be started");
    assert!(made.success());
    let (there, again) = (files_below(&there), files_below(&again));
    assert_eq!(
        there.keys().collect::<Vec<_>>(),
        again.keys().collect::<Vec<_>>()
    );
    for (name, bytes) in &there {
        assert!(bytes == &again[name], "{name} differs");
    }
}
