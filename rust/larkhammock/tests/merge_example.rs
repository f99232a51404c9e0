//! The example program `merge`, on the files of `examples/two-halls`.

mod program;

use std::fs;
use std::path::{Path, PathBuf};

use larkhammock::{judge, read_problem, Counts, Outcome, Part, Verdict, Version};
use program::{prints, refuses_arguments, run};

const FIRST: &str = "../examples/two-halls/first";
const SECOND: &str = "../examples/two-halls/second";
const LARGE: &str = "../examples/large-store/problem";

/// A file of the example.
fn file(name: &str) -> Vec<u8> {
    let root = Path::new(env!("CARGO_MANIFEST_DIR")).join("../../examples/two-halls");
    fs::read(root.join(name)).expect("the file is there")
}

/// Two files for what a test has the program write, which are not there before.
struct Written {
    problem: PathBuf,
    table: PathBuf,
}

impl Written {
    fn new(test: &str) -> Written {
        let folder = Path::new(env!("CARGO_TARGET_TMPDIR")).join(format!("merge-{test}"));
        if folder.exists() {
            fs::remove_dir_all(&folder).expect("the folder is this test's");
        }
        fs::create_dir_all(&folder).expect("the folder can be made");
        let [problem, table] = ["problem", "table"].map(|name| folder.join(name));
        Written { problem, table }
    }

    fn arguments<'a>(&'a self, first: &'a str, second: &'a str) -> [&'a str; 4] {
        let [problem, table] = [&self.problem, &self.table].map(|path| path.to_str());
        let known = "the folder's name is text";
        [first, second, problem.expect(known), table.expect(known)]
    }

    fn read(&self) -> (Vec<u8>, Vec<u8>) {
        let [problem, table] = [&self.problem, &self.table].map(fs::read);
        let there = "the program wrote it";
        (problem.expect(there), table.expect(there))
    }
}

/// What the program writes of both halls of the example.
fn merged(test: &str) -> (Vec<u8>, Vec<u8>) {
    let written = Written::new(test);
    let arguments = written.arguments(FIRST, SECOND);
    prints("merge", &arguments, "merged into 135 bytes with 8 actions");
    written.read()
}

/// A plan's block.
fn plan(steps: &[u8]) -> Vec<u8> {
    [&[1, 0, 0, 0, steps.len() as u8], steps].concat()
}

/// The first hall's plan and one of the second by turns, under the numbers of a table.
fn by_turns(table: &[u8], second_plan: &[u8]) -> Vec<u8> {
    let (of_first, of_second) = table.split_at(file("first")[6].into());
    let numbered = |table: &[u8], plan: &[u8]| -> Vec<u8> {
        let steps = &plan[5..];
        steps.iter().map(|step| table[usize::from(*step)]).collect()
    };
    let first = numbered(of_first, &file("first-plan"));
    let second = numbered(of_second, second_plan);
    let turns = 0..first.len().max(second.len());
    let steps = turns.flat_map(|turn| first.get(turn).into_iter().chain(second.get(turn)));
    plan(&steps.copied().collect::<Vec<u8>>())
}

/// As the page of the example has it, byte by byte.
#[test]
fn it_merges_the_two_halls() {
    let (problem, table) = merged("halls");
    let counts = Counts {
        version: Version::V2,
        facts: 9,
        actions: 8,
    };
    assert_eq!(read_problem(&problem), Ok(counts));
    assert_eq!((problem, table), (file("problem"), file("table")));
}

/// Whoever merges the same halls again writes the same files.
#[test]
fn two_merges_are_the_same_files() {
    assert_eq!(merged("once"), merged("again"));
}

#[test]
fn the_plans_of_both_halls_are_right_by_turns() {
    let (problem, table) = merged("turns");
    let second_plan = file("second-plan");
    assert_eq!(by_turns(&file("table"), &second_plan), file("plan"));
    let right = Verdict::Right {
        lines: 118,
        visits: 235,
    };
    let verdict = judge(&problem, &by_turns(&table, &second_plan), 1_000_000);
    assert_eq!(verdict, Ok(right));
}

/// The turntable turns while a carriage waits on both tracks: its fact 2 blocks it.
#[test]
fn a_plan_that_is_blocked_in_the_second_hall_names_its_fact_moved_up() {
    let (problem, table) = merged("blocked");
    let hasty = plan(&[0, 1]);
    assert_eq!(by_turns(&file("table"), &hasty), file("wrong-plan"));
    let verdict = judge(&problem, &by_turns(&table, &hasty), 1_000_000);
    let Ok(Verdict::Wrong { state, outcome, .. }) = verdict else {
        panic!("it is wrong");
    };
    let blocked = Outcome::Blocked {
        step: 1,
        part: Part::Fact(8),
    };
    assert_eq!(outcome, blocked);
    assert_eq!(state.to_string(), "010100110");
}

/// A refusal is printed, and nothing is written.
#[test]
fn halls_that_do_not_fit_together_are_refused() {
    let written = Written::new("refused");
    for (first, second, refused) in [
        (LARGE, LARGE, "refused 82 at 0: "),
        ("../README.md", SECOND, "refused 12 at 0: "),
        (FIRST, "../examples/two-halls/plan", "refused 17 at 7: "),
    ] {
        let output = run("merge", &written.arguments(first, second));
        let printed = String::from_utf8_lossy(&output.stdout).into_owned();
        assert!(printed.starts_with(refused), "{printed}");
        assert!(output.stderr.is_empty() && output.status.success());
        assert!(!written.problem.exists() && !written.table.exists());
    }
}

#[test]
fn it_wants_two_halls_and_two_files() {
    let written = Written::new("arguments");
    let arguments = written.arguments(FIRST, SECOND);
    for arguments in [
        &[][..],
        &arguments[..3],
        &[FIRST, "no such file", arguments[2], arguments[3]],
    ] {
        refuses_arguments("merge", arguments);
        assert!(!written.problem.exists() && !written.table.exists());
    }
}
