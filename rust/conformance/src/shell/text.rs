//! A problem and a plan as a text that a person can read and change.

use super::Names;
use crate::model::{Action, Effect, Formula, Problem};

pub fn of_problem(names: &Names, problem: &Problem) -> String {
    let mut text = format!("version {}\n", problem.version.byte);
    for fact in 0..problem.facts {
        text += &format!("fact {}\n", names.fact(fact));
    }
    text += &format!("start {}\n", names.formula(&problem.initial));
    text += &format!("goal {}\n", names.formula(&problem.goal));
    for (number, action) in (0..).zip(&problem.actions) {
        text += &format!("action {}\n", names.action(number));
        text += &of_action(names, action);
    }
    text
}

/// Its steps, a line each.
pub fn of_plan(names: &Names, steps: &[u8]) -> String {
    let steps = steps.iter().map(|step| names.action(*step));
    let lines: String = steps.map(|name| format!("  {name}\n")).collect();
    format!("plan\n{lines}")
}

fn of_action(names: &Names, action: &Action) -> String {
    let needs = match unless_always(names, &action.precondition) {
        Some(formula) => format!("  needs {formula}\n"),
        None => String::new(),
    };
    let effects = action.effects.iter();
    let lines: String = effects.map(|effect| of_effect(names, effect)).collect();
    needs + &lines
}

fn of_effect(names: &Names, effect: &Effect) -> String {
    let verb = if effect.literal.denied {
        "clears"
    } else {
        "sets"
    };
    let fact = names.fact(effect.literal.fact);
    match unless_always(names, &effect.condition) {
        Some(formula) => format!("  {verb} {fact} if {formula}\n"),
        None => format!("  {verb} {fact}\n"),
    }
}

fn unless_always(names: &Names, formula: &Formula) -> Option<String> {
    (*formula != Formula::always()).then(|| names.formula(formula))
}
