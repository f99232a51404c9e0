//! Two values: one state at a time, and all of them in turn.

use super::{Outcome, Part, Task};
use crate::model::{Action, Formula, Kind};
use crate::version::VERSION_2;

pub fn holds(formula: &Formula, state: &[bool]) -> bool {
    match formula {
        Formula::Literal(l) => state[usize::from(l.fact)] != l.denied,
        Formula::Group(Kind::All, members) => members.iter().all(|m| holds(m, state)),
        Formula::Group(Kind::Any, members) => members.iter().any(|m| holds(m, state)),
    }
}

/// The facts that an action tells to be set, or to be cleared: a bit for each.
fn told(action: &Action, state: &[bool], denied: bool) -> u64 {
    let entries = action.effects.iter();
    entries
        .filter(|e| e.literal.denied == denied && holds(&e.condition, state))
        .fold(0, |facts, e| facts | 1 << e.literal.fact)
}

/// The state after an action: what is set, and what was true and is not cleared.
pub fn after(action: &Action, before: &[bool]) -> Vec<bool> {
    let [set, cleared] = [false, true].map(|denied| told(action, before, denied));
    let has = |facts: u64, fact: usize| facts >> fact & 1 == 1;
    (0..before.len())
        .map(|f| has(set, f) || (before[f] && !has(cleared, f)))
        .collect()
}

/// The facts that an action tells to be set and to be cleared: a bit for each.
fn both(action: &Action, state: &[bool]) -> u64 {
    told(action, state, false) & told(action, state, true)
}

/// The same in a row, the lowest first.
pub fn conflicts(action: &Action, state: &[bool]) -> Vec<u8> {
    let both = both(action, state);
    (0..VERSION_2.most_facts)
        .filter(|fact| both >> fact & 1 == 1)
        .collect()
}

/// The member that is named of a precondition which does not hold.
fn unmet(precondition: &Formula, state: &[bool]) -> u64 {
    let member = match precondition {
        Formula::Group(Kind::All, members) => members
            .iter()
            .position(|m| !holds(m, state))
            .expect("an \"all\" is false by a member"),
        _ => 0,
    };
    member as u64
}

/// Why an action is not applicable, if it is not.
fn hindrance(action: &Action, state: &[bool]) -> Option<Part> {
    if !holds(&action.precondition, state) {
        return Some(Part::Member(unmet(&action.precondition, state)));
    }
    let both = both(action, state);
    (both != 0).then(|| Part::Fact(both.trailing_zeros().into()))
}

pub fn outcome(task: &Task, start: &[bool]) -> Outcome {
    let mut state = start.to_vec();
    for (step, action) in task.steps().enumerate() {
        if let Some(part) = hindrance(action, &state) {
            let step = step as u64;
            return Outcome::Blocked { step, part };
        }
        state = after(action, &state);
    }
    if holds(&task.problem.goal, &state) {
        Outcome::Reached
    } else {
        Outcome::Missed
    }
}

/// The state before each step and that after the last, whether the steps are
/// applicable or not.
pub fn states(task: &Task, start: &[bool]) -> Vec<Vec<bool>> {
    let mut states = vec![start.to_vec()];
    for (step, action) in task.steps().enumerate() {
        states.push(after(action, &states[step]));
    }
    states
}

/// The lowest start state that does not reach the goal, by trying every state.
pub fn lowest_failing(task: &Task) -> Option<(u64, Outcome)> {
    let facts = u32::from(task.problem.facts);
    (0..1u64 << facts).find_map(|n| {
        let state: Vec<bool> = (0..facts).rev().map(|bit| n >> bit & 1 == 1).collect();
        if !holds(&task.problem.initial, &state) {
            return None;
        }
        match outcome(task, &state) {
            Outcome::Reached => None,
            other => Some((task.problem.version.number(&state), other)),
        }
    })
}
