//! What the desk program prints, from the oracle's answers.

use std::iter::repeat_n;

use crate::model::{Line, Problem};
use crate::oracle::{self, Outcome, Part, Refusal, Task, Verdict};

/// The desk program's grant is fixed.
pub const GRANT: u64 = 1_000_000;

/// The whole text for the bytes of the two files. A file that cannot be read or
/// is not named counts as no bytes.
pub fn printed(problem: &[u8], plan: &[u8]) -> Vec<u8> {
    let mut text = String::new();
    for line in lines(problem, plan) {
        text.push_str(&line);
        text.push('\n');
    }
    text.into_bytes()
}

fn lines(problem: &[u8], plan: &[u8]) -> Vec<String> {
    if let Err(refusal) = oracle::read_problem(problem) {
        return vec![refused("problem", refusal)];
    }
    let task = match Task::parse(problem, plan) {
        Err(refusal) => return vec![refused("plan", refusal)],
        Ok(task) => task,
    };
    let tree = &task.problem;
    match oracle::judge(problem, plan, GRANT).expect("both blocks are sound") {
        Verdict::Undecided { visits } => vec![format!("undecided visited {visits}")],
        Verdict::Wrong {
            state,
            outcome,
            visits,
        } => {
            let state = marks(tree, state, tree.facts);
            let end = match outcome {
                Outcome::Blocked { step, part } => format!("step {step} {}", named(part)),
                Outcome::Missed => "end".into(),
                Outcome::Reached => unreachable!("a failing state does not reach the goal"),
            };
            vec![format!("wrong {state} at {end} visited {visits}")]
        }
        Verdict::Right { lines, visits } => {
            let mut text = vec![format!("right lines {lines} visited {visits}")];
            if lines > tree.version.most_lines as u64 {
                text.push("list too long".into());
            } else {
                let closed = oracle::walk(&task, GRANT).lines;
                text.extend(closed.iter().map(|line| closed_case(tree, line)));
            }
            text
        }
    }
}

fn named(part: Part) -> String {
    match part {
        Part::Member(member) => format!("member {member}"),
        Part::Fact(fact) => format!("fact {fact}"),
    }
}

fn refused(block: &str, refusal: Refusal) -> String {
    let Refusal { number, place } = refusal;
    format!("refused {block} {number} at {place}")
}

fn closed_case(problem: &Problem, line: &Line) -> String {
    let kind = ["no-start", "carries"][usize::from(line.kind)];
    format!("{kind} {}", marks(problem, line.value, line.k))
}

/// One mark for each fact; past the first `k` the value is not fixed.
fn marks(problem: &Problem, value: u64, k: u8) -> String {
    let fixed = problem.version.values(value, k).into_iter();
    fixed
        .map(|yes| if yes { '1' } else { '0' })
        .chain(repeat_n('?', usize::from(problem.facts - k)))
        .collect()
}
