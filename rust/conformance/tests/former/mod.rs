//! The former rule, by which a set condition won over a clear one, in terms of the one
//! that blocks.

use conformance::model::{Action, Effect, Formula, Problem};
use conformance::oracle::Task;

/// The steps that a step is taken apart into.
pub const MOVES: u8 = 4;

/// A task in which no action has both entries for a fact, and a fact whose set and
/// clear conditions are both true becomes true. Each step forgets, notes what is to
/// be set, clears, and then sets what is noted; the notes are facts after all
/// others. Nothing where there is no room for them.
pub fn with_sets_winning(task: &Task) -> Option<Task> {
    let problem = &task.problem;
    let facts = problem.facts;
    if 2 * facts > problem.version.most_facts {
        return None;
    }
    let moves = |action: &Action| {
        let (sets, clears): (Vec<Effect>, Vec<Effect>) =
            (action.effects.iter().cloned()).partition(|effect| !effect.literal.denied);
        let told = || sets.iter().map(|set| (set.literal.fact, &set.condition));
        let forget = (facts..2 * facts).map(|note| Effect::clears(note, Formula::always()));
        let notes = told().map(|(fact, set)| Effect::sets(facts + fact, set.clone()));
        let done = told().map(|(fact, _)| Effect::sets(fact, Formula::fact(facts + fact)));
        [
            (action.precondition.clone(), forget.collect()),
            (Formula::always(), notes.collect()),
            (Formula::always(), clears),
            (Formula::always(), done.collect()),
        ]
        .map(|(precondition, effects)| Action {
            precondition,
            effects,
        })
    };
    let steps = |step: &u8| {
        let first = MOVES * step;
        (0..MOVES).map(move |part| first + part)
    };
    Some(Task {
        plan: task.plan.iter().flat_map(steps).collect(),
        problem: Problem {
            facts: 2 * facts,
            actions: problem.actions.iter().flat_map(moves).collect(),
            ..problem.clone()
        },
    })
}
