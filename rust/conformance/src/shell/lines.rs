//! The line that answers a command, in names or numbers.

use super::words::{of_number, subject};
use super::{Answer, Names};
use crate::model::Problem;
use crate::oracle::{Outcome, Part, Refusal, Search, Verdict};

pub fn of_answer(names: &Names, problem: &Problem, answer: &Answer) -> String {
    let line = match answer {
        Answer::Judged(verdict) => of_verdict(names, problem, verdict),
        Answer::Written(bytes) => format!("wrote {bytes} bytes"),
        Answer::Followed(lines) => format!("passes, {lines} lines"),
        Answer::Ran(outcome) => of_outcome(names, outcome),
        Answer::Rests(set) => format!("rests on {}", state(names, problem, *set)),
        Answer::Searched(search) => of_search(names, search),
    };
    line + "\n"
}

/// The refusal of a line, or of the end of the lines, in words, and of all else by
/// number.
pub fn of_refusal(refusal: &Refusal) -> String {
    let Refusal { number, place } = *refusal;
    let words = match number {
        65..=70 => of_number(number),
        _ => return format!("refused {} {number} at {place}\n", subject(number)),
    };
    match number {
        70 => format!("end: {words} ({number})\n"),
        _ => format!("line {place}: {words} ({number})\n"),
    }
}

fn state(names: &Names, problem: &Problem, state: u64) -> String {
    names.state(&problem.version.values(state, problem.facts))
}

fn of_verdict(names: &Names, problem: &Problem, verdict: &Verdict) -> String {
    match verdict {
        Verdict::Right { lines, visits } => format!("right lines {lines} visited {visits}"),
        Verdict::Wrong {
            state: failing,
            outcome,
            visits,
        } => {
            let (failing, end) = (state(names, problem, *failing), end(names, outcome));
            format!("wrong {failing} {end} visited {visits}")
        }
        Verdict::Undecided { visits } => format!("undecided visited {visits}"),
    }
}

fn of_outcome(names: &Names, outcome: &Outcome) -> String {
    match outcome {
        Outcome::Reached => "reached".into(),
        Outcome::Missed => "missed".into(),
        Outcome::Blocked { .. } => format!("blocked {}", end(names, outcome)),
    }
}

/// Where a run ends.
fn end(names: &Names, outcome: &Outcome) -> String {
    let Outcome::Blocked { step, part } = outcome else {
        return "at end".into();
    };
    match part {
        Part::Member(member) => format!("at step {step} member {member}"),
        Part::Fact(fact) => format!("at step {step} fact {}", names.fact(*fact as u8)),
    }
}

fn of_search(names: &Names, search: &Search) -> String {
    let steps = |plan: &[u8]| -> String {
        let names = plan.iter().map(|step| names.action(*step));
        names.map(|name| format!(" {name}")).collect()
    };
    match search {
        Search::Found { plan, visits } => format!("found{} visited {visits}", steps(plan)),
        Search::NoneRight { visits } => format!("none visited {visits}"),
        Search::Undecided { plan, visits } => {
            format!("undecided at{} visited {visits}", steps(plan))
        }
    }
}
