//! A run as a person reads it: a line a step, with the facts that it changed, and
//! where it ends.

use super::Names;
use crate::model::{Action, Formula, Kind};
use crate::oracle::{after, conflicts, holds, Task};

/// The run of a plan from this state.
pub fn explanation(names: &Names, task: &Task, state: u64) -> String {
    let problem = &task.problem;
    let mut values = problem.version.values(state, problem.facts);
    let mut told = format!("start: {}\n", names.state(&values));
    for (number, step) in task.plan.iter().enumerate() {
        let action = &problem.actions[usize::from(*step)];
        told += &format!("step {number} {}:", names.action(*step));
        if let Some(reason) = hindrance(names, action, &values) {
            return told + &reason;
        }
        let next = after(action, &values);
        told += &changes(names, &values, &next);
        values = next;
    }
    told + &end(names, &problem.goal, &values)
}

/// Why an action is not applicable, if it is not.
fn hindrance(names: &Names, action: &Action, values: &[bool]) -> Option<String> {
    if !holds(&action.precondition, values) {
        let part = false_part(names, &action.precondition, values);
        return Some(format!(" blocked, as this is false:\n{part}"));
    }
    let fact = *conflicts(action, values).first()?;
    let fact = names.fact(fact);
    Some(format!(" blocked, as it would set and clear {fact}\n"))
}

fn changes(names: &Names, before: &[bool], after: &[bool]) -> String {
    let mut line = String::new();
    for (fact, (was, is)) in (0..).zip(before.iter().zip(after)) {
        if was != is {
            let mark = if *is { '+' } else { '-' };
            line += &format!(" {mark}{}", names.fact(fact));
        }
    }
    line + "\n"
}

fn end(names: &Names, goal: &Formula, values: &[bool]) -> String {
    if holds(goal, values) {
        return "end: the goal is reached\n".into();
    }
    let part = false_part(names, goal, values);
    format!("end: the goal is missed, as this is false:\n{part}")
}

/// Each false member of an "all", and else the whole, a line each.
fn false_part(names: &Names, formula: &Formula, values: &[bool]) -> String {
    let parts = match formula {
        Formula::Group(Kind::All, members) => members.as_slice(),
        whole => std::slice::from_ref(whole),
    };
    let failing = parts.iter().filter(|part| !holds(part, values));
    failing
        .map(|part| format!("  {}\n", names.formula(part)))
        .collect()
}
