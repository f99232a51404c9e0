//! Which start facts a reached run rests on.

use std::collections::BTreeSet;

use super::{holds, Task};
use crate::model::{Action, Formula, Literal};

pub type Facts = BTreeSet<u8>;

/// The facts that a formula names.
pub fn named(formula: &Formula) -> Facts {
    let mut facts = Facts::new();
    put_named(formula, &mut facts);
    facts
}

fn put_named(formula: &Formula, facts: &mut Facts) {
    match formula {
        Formula::Literal(literal) => {
            facts.insert(literal.fact);
        }
        Formula::Group(_, members) => members.iter().for_each(|m| put_named(m, facts)),
    }
}

/// The conditions under which an action sets a fact and clears it, where it has
/// such an entry.
pub fn conditions(action: &Action, fact: u8) -> [Option<&Formula>; 2] {
    [false, true].map(|denied| {
        let literal = Literal { fact, denied };
        let mut effects = action.effects.iter();
        Some(&effects.find(|effect| effect.literal == literal)?.condition)
    })
}

/// After the last step, the goal's facts matter.
pub fn relevant(task: &Task, states: &[Vec<bool>]) -> Facts {
    let goal = named(&task.problem.goal);
    // The last state is before no step, and falls away.
    let steps = task.steps().zip(states).rev();
    steps.fold(goal, |after, (action, state)| before(action, state, &after))
}

/// What matters before a step: the facts of its precondition, those of both conditions
/// of a fact that has entries to set and to clear it, and what comes in the place of
/// each fact that matters after it.
fn before(action: &Action, state: &[bool], after: &Facts) -> Facts {
    let mut facts = named(&action.precondition);
    for fact in 0..state.len() as u8 {
        if conditions(action, fact).iter().all(Option::is_some) {
            facts.extend(named_in_both(action, fact));
        }
    }
    for fact in after {
        facts.extend(in_place_of(*fact, action, state));
    }
    facts
}

/// Of a fact that was surely set, the facts of its set condition; of any other, itself
/// and the facts of both its conditions.
fn in_place_of(fact: u8, action: &Action, state: &[bool]) -> Facts {
    match conditions(action, fact) {
        [Some(set), _] if holds(set, state) => named(set),
        _ => &Facts::from([fact]) | &named_in_both(action, fact),
    }
}

/// A literal without an entry names no fact.
fn named_in_both(action: &Action, fact: u8) -> Facts {
    let entries = conditions(action, fact).into_iter().flatten();
    entries.flat_map(named).collect()
}
