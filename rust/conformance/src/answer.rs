//! The oracle's answers as the eight words of the C interface. Words that a
//! row does not name are 0.

use crate::model::Problem;
use crate::oracle::{Merged, Outcome, Part, Refusal, Search, Verdict};

pub type Answer = [u64; 8];

/// The named words, then zeros.
pub fn words(named: &[u64]) -> Answer {
    let mut words = [0; 8];
    words[..named.len()].copy_from_slice(named);
    words
}

fn refused(refusal: &Refusal) -> Answer {
    words(&[0, refusal.number, refusal.place])
}

pub fn read_problem(result: &Result<Problem, Refusal>) -> Answer {
    match result {
        Err(refusal) => refused(refusal),
        Ok(problem) => words(&[1, problem.facts.into(), problem.actions.len() as u64]),
    }
}

/// Reading a plan, following a list, writing one and telling the relevant facts
/// answer with one number: steps, lines, length or the state of the set.
pub fn number(result: &Result<u64, Refusal>) -> Answer {
    match result {
        Err(refusal) => refused(refusal),
        Ok(number) => words(&[1, *number]),
    }
}

pub fn run(result: &Result<Outcome, Refusal>) -> Answer {
    match result {
        Err(refusal) => refused(refusal),
        Ok(outcome) => words(&outcome_words(outcome)),
    }
}

pub fn judge(result: &Result<Verdict, Refusal>) -> Answer {
    match result {
        Err(refusal) => refused(refusal),
        Ok(Verdict::Right { lines, visits }) => words(&[1, *visits, *lines]),
        Ok(Verdict::Wrong {
            state,
            outcome,
            visits,
        }) => {
            let [tag, step, part, number] = outcome_words(outcome);
            words(&[2, *visits, *state, tag, step, part, number])
        }
        Ok(Verdict::Undecided { visits }) => words(&[3, *visits]),
    }
}

pub fn search_plans(result: &Result<Search, Refusal>) -> Answer {
    match result {
        Err(refusal) => refused(refusal),
        Ok(Search::Found { plan, visits }) => words(&plan_words(1, *visits, plan)),
        Ok(Search::NoneRight { visits }) => words(&[2, *visits]),
        Ok(Search::Undecided { plan, visits }) => words(&plan_words(3, *visits, plan)),
    }
}

pub fn merge(result: &Result<Merged, Refusal>) -> Answer {
    match result {
        Err(refusal) => refused(refusal),
        Ok(merged) => words(&[1, merged.block.len() as u64, merged.numbers.len() as u64]),
    }
}

/// The tag, the visits, and a plan's length and steps.
pub fn plan_words(tag: u64, visits: u64, plan: &[u8]) -> Vec<u64> {
    let steps = plan.iter().copied().map(u64::from);
    [tag, visits, plan.len() as u64]
        .into_iter()
        .chain(steps)
        .collect()
}

/// The tag, and a block's step, part and number.
fn outcome_words(outcome: &Outcome) -> [u64; 4] {
    match outcome {
        Outcome::Reached => [1, 0, 0, 0],
        Outcome::Missed => [2, 0, 0, 0],
        Outcome::Blocked { step, part } => {
            let [part, number] = part_words(part);
            [3, *step, part, number]
        }
    }
}

fn part_words(part: &Part) -> [u64; 2] {
    match part {
        Part::Member(member) => [0, *member],
        Part::Fact(fact) => [1, *fact],
    }
}
