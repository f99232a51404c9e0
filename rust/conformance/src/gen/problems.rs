//! Sound problems with plans for them.

use std::collections::BTreeSet;

use super::formulas::{formula, literal};
use super::Rng;
use crate::encode;
use crate::model::{Action, Effect, Formula, Literal, Problem};
use crate::oracle::{after, conflicts, holds, Task};
use crate::version::{Version, LONGEST_SEARCHED, MOST_ACTIONS, MOST_PROBLEM_BYTES, MOST_STEPS};

/// A plan with steps among the actions; empty where there are none.
pub fn plan(rng: &mut Rng, actions: usize) -> Vec<u8> {
    let steps = match rng.below(60) {
        _ if actions == 0 => 0,
        0 => MOST_STEPS,
        n if n < 50 => rng.below(5),
        _ => rng.below(9),
    };
    (0..steps).map(|_| rng.below(actions) as u8).collect()
}

/// Any problem and plan: mostly few facts, sometimes as many as there can be.
pub fn task(rng: &mut Rng, version: &Version) -> Task {
    loop {
        let task = task_of_any_size(rng, version);
        if encode::problem(&task.problem).len() <= MOST_PROBLEM_BYTES {
            return task;
        }
    }
}

fn task_of_any_size(rng: &mut Rng, version: &Version) -> Task {
    let facts = match rng.below(16) {
        0 => rng.between(9, version.most_facts.into()),
        1 => rng.between(9, 12),
        _ => rng.between(1, 8),
    } as u8;
    let most = if rng.chance(1, 40) { MOST_ACTIONS } else { 5 };
    let actions: Vec<Action> = (0..rng.between(0, most))
        .map(|_| action(rng, version, facts))
        .collect();
    let plan = plan(rng, actions.len());
    let problem = Problem {
        version: *version,
        facts,
        initial: formula(rng, facts),
        goal: formula(rng, facts),
        actions,
    };
    Task { problem, plan }
}

fn action(rng: &mut Rng, version: &Version, facts: u8) -> Action {
    let precondition = if rng.chance(2, 3) {
        Formula::always()
    } else {
        formula(rng, facts)
    };
    Action {
        precondition,
        effects: effects(rng, version, facts),
    }
}

/// Effects with literals that rise: sets first, then clears. Of the facts with
/// an entry, half have both.
fn effects(rng: &mut Rng, version: &Version, facts: u8) -> Vec<Effect> {
    let likely = rng.pick(&[1, 2, 4]);
    let most = if rng.chance(1, 40) {
        version.most_effects.into()
    } else {
        12
    };
    let (mut sets, mut clears) = (Vec::new(), Vec::new());
    for fact in 0..facts {
        if sets.len() + clears.len() + 2 > most || !rng.chance(likely, 6) {
            continue;
        }
        let [set, clear] = conditions(rng, facts);
        let entries = rng.below(4);
        if entries != 0 {
            sets.push(Effect::sets(fact, set));
        }
        if entries != 1 {
            clears.push(Effect::clears(fact, clear));
        }
    }
    [sets, clears].concat()
}

/// The conditions of one fact: any two, one twice, or two that no state makes true
/// both.
fn conditions(rng: &mut Rng, facts: u8) -> [Formula; 2] {
    match rng.below(6) {
        0 | 1 => [formula(rng, facts), formula(rng, facts)],
        2 => {
            let one = formula(rng, facts);
            [one.clone(), one]
        }
        _ => apart(rng, facts),
    }
}

/// They differ on a fact.
fn apart(rng: &mut Rng, facts: u8) -> [Formula; 2] {
    let fact = rng.below(facts.into()) as u8;
    let mut sides = [Formula::fact(fact), Formula::not(fact)];
    sides.rotate_left(rng.below(2));
    sides.map(|side| match rng.below(3) {
        0 => Formula::all([literal(rng, facts), side]),
        _ => side,
    })
}

/// A problem whose plan is right, mostly: what the plan brings about is worked
/// out first, with conflicts on the way taken out, and preconditions and goal are
/// chosen to be true of it. One in four is then spoilt in one formula.
pub fn right_task(rng: &mut Rng, version: &Version) -> Task {
    let facts = rng.between(1, 8) as u8;
    let initial = formula(rng, facts);
    let mut actions: Vec<Action> = (0..rng.between(1, 4))
        .map(|_| Action {
            precondition: Formula::always(),
            effects: effects(rng, version, facts),
        })
        .collect();
    let plan = plan(rng, actions.len());

    let starts: States = (0..1u32 << facts)
        .map(|n| (0..facts).map(|fact| n >> fact & 1 == 1).collect())
        .filter(|state: &Vec<bool>| holds(&initial, state))
        .collect();
    let way = loop {
        match way(&actions, &plan, &starts) {
            Ok(way) => break way,
            Err(Conflict { action, fact }) => {
                let denied = rng.chance(1, 2);
                let lost = Literal { fact, denied };
                actions[action].effects.retain(|e| e.literal != lost);
            }
        }
    };
    for (action, states) in actions.iter_mut().zip(&way.before) {
        if rng.chance(1, 2) {
            action.precondition = formula_true_of(rng, facts, states);
        }
    }
    let goal = formula_true_of(rng, facts, &way.end);
    let mut problem = Problem {
        version: *version,
        facts,
        initial,
        goal,
        actions,
    };
    if rng.chance(1, 4) {
        spoil(rng, &mut problem);
    }
    Task { problem, plan }
}

type States = BTreeSet<Vec<bool>>;

/// The states in which a plan meets each action, and those in which it ends.
struct Way {
    before: Vec<States>,
    end: States,
}

/// An action that sets and clears a fact at once.
struct Conflict {
    action: usize,
    fact: u8,
}

/// The way of a plan from these states, whatever its preconditions say; or the
/// first conflict on it.
fn way(actions: &[Action], plan: &[u8], starts: &States) -> Result<Way, Conflict> {
    let mut before = vec![BTreeSet::new(); actions.len()];
    let mut end = starts.clone();
    for action in plan {
        let action = usize::from(*action);
        let met = end;
        let mut told = met.iter().map(|state| conflicts(&actions[action], state));
        if let Some(fact) = told.find_map(|facts| facts.first().copied()) {
            return Err(Conflict { action, fact });
        }
        end = met
            .iter()
            .map(|state| after(&actions[action], state))
            .collect();
        before[action].extend(met);
    }
    Ok(Way { before, end })
}

/// A formula that holds in all these states: a chance find, or one made of them.
fn formula_true_of(rng: &mut Rng, facts: u8, states: &States) -> Formula {
    for _ in 0..12 {
        let found = formula(rng, facts);
        if states.iter().all(|state| holds(&found, state)) && found != Formula::always() {
            return found;
        }
    }
    if states.len() <= 24 {
        return Formula::any(states.iter().map(|state| cube(state)));
    }
    Formula::all((0..facts).map(Formula::either))
}

/// True in this state alone.
pub fn cube(state: &[bool]) -> Formula {
    let literals = state.iter().enumerate().map(|(fact, value)| {
        let denied = !value;
        let fact = fact as u8;
        Formula::Literal(Literal { fact, denied })
    });
    Formula::all(literals)
}

fn spoil(rng: &mut Rng, problem: &mut Problem) {
    let facts = problem.facts;
    let other = formula(rng, facts);
    let action = rng.below(problem.actions.len());
    let action = &mut problem.actions[action];
    match rng.below(4) {
        0 => problem.initial = other,
        1 => action.precondition = other,
        2 if !action.effects.is_empty() => {
            let effect = rng.below(action.effects.len());
            action.effects[effect].condition = other;
        }
        _ => problem.goal = other,
    }
}

/// A problem for which a search has to go far: it wants up to four steps in turn,
/// each of which sets a fact if that of the step before is true. Facts after those
/// come and go, and decide nothing.
pub fn ordered_problem(rng: &mut Rng, version: &Version) -> Problem {
    let wanted = rng.below(LONGEST_SEARCHED as usize + 1) as u8;
    let facts = wanted + rng.between(1, 3) as u8;
    let mut actions: Vec<Action> = (0..rng.between(1, 4))
        .map(|_| Action {
            precondition: Formula::always(),
            effects: Vec::new(),
        })
        .collect();
    let mut goal = Formula::always();
    for fact in 0..wanted {
        let before = match fact {
            0 => Formula::always(),
            _ => Formula::fact(fact - 1),
        };
        let step = rng.below(actions.len());
        actions[step].effects.push(Effect::sets(fact, before));
        goal = Formula::fact(fact);
    }
    for action in &mut actions {
        let other = rng.between(wanted.into(), usize::from(facts) - 1) as u8;
        match rng.below(3) {
            0 => action
                .effects
                .push(Effect::sets(other, literal(rng, facts))),
            1 => action
                .effects
                .push(Effect::clears(other, literal(rng, facts))),
            _ => {}
        }
    }
    let mut starts: Vec<Formula> = (0..wanted).map(Formula::not).collect();
    starts.push(Formula::any(
        (0..rng.between(1, 3)).map(|_| literal(rng, facts)),
    ));
    Problem {
        version: *version,
        facts,
        initial: Formula::all(starts),
        goal,
        actions,
    }
}

/// A right plan whose walk must fix 12 facts or more in nearly every case.
pub fn wide_task(rng: &mut Rng, version: &Version) -> Task {
    let facts = rng.between(12, 14) as u8;
    let goal = Formula::all((0..facts).map(Formula::either));
    let initial = match rng.below(3) {
        0 => Formula::always(),
        1 => Formula::any((0..facts - 1).map(Formula::fact)),
        _ => formula(rng, facts),
    };
    let problem = Problem {
        version: *version,
        facts,
        initial,
        goal,
        actions: Vec::new(),
    };
    let plan = Vec::new();
    Task { problem, plan }
}
