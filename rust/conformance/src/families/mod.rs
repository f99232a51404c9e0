//! Problems of any size with a plan that is right for them: what the examples
//! and the benchmarks are made of.

pub mod bombs;
pub mod grid;
pub mod sorting;
pub mod store;

use crate::encode;
use crate::model::{Action, Effect, Formula, Problem};
use crate::version::{Version, VERSIONS};

/// No action, and nothing to reach: every case carries the empty plan.
pub fn idle(version: Version, facts: u8) -> Problem {
    Problem {
        version,
        facts,
        initial: Formula::always(),
        goal: Formula::always(),
        actions: Vec::new(),
    }
}

/// Nothing to do, and a goal that is true in every state. But a case is seen to carry
/// only when it fixes all facts, or lies in one of a few wider cases: those are so
/// chosen that the list of the empty plan has this many lines, at most one for each
/// state.
pub fn of_lines(version: Version, facts: u8, lines: u32) -> Problem {
    let mut spared = (1 << facts) - lines;
    let mut first = 0;
    let mut members = vec![Formula::all((0..facts).map(Formula::either))];
    for open in (1..=facts).rev() {
        // So many states in one line.
        let states = 1 << open;
        while spared >= states - 1 {
            spared -= states - 1;
            let literal = |fact| match first >> (facts - 1 - fact) & 1 {
                0 => Formula::not(fact),
                _ => Formula::fact(fact),
            };
            members.push(Formula::all((0..facts - open).map(literal)));
            first += states;
        }
    }
    Problem {
        goal: Formula::any(members),
        ..idle(version, facts)
    }
}

/// The first version in which a problem can have so many facts.
fn version_for(facts: u8) -> Version {
    let mut versions = VERSIONS.into_iter();
    let version = versions.find(|version| facts <= version.most_facts);
    version.expect("some version has so many facts")
}

/// An action that is always applicable. Its effects may come in any order.
fn action(mut effects: Vec<Effect>) -> Action {
    effects.sort_by_key(|effect| encode::literal(effect.literal));
    Action {
        precondition: Formula::always(),
        effects,
    }
}

/// Exactly one of these facts is true, as members of an "all".
fn exactly_one(facts: &[u8]) -> Vec<Formula> {
    let mut members = vec![Formula::any(facts.iter().map(|fact| Formula::fact(*fact)))];
    for (i, one) in facts.iter().enumerate() {
        for other in &facts[i + 1..] {
            members.push(Formula::any([Formula::not(*one), Formula::not(*other)]));
        }
    }
    members
}

/// A move by one along a row of places, of which one fact each says "it is
/// here"; in the last place it stays. A place between takes the value of the one
/// before it: set where that is true, cleared where it is not. So no state has
/// both conditions true; but they read unknown as long as the one before is, and
/// the walk must split on it.
fn shift(row: &[u8]) -> Vec<Effect> {
    let last = row.len() - 1;
    let mut effects = vec![Effect::clears(row[0], Formula::always())];
    for place in 1..=last {
        let before = row[place - 1];
        effects.push(Effect::sets(row[place], Formula::fact(before)));
        if place < last {
            effects.push(Effect::clears(row[place], Formula::not(before)));
        }
    }
    effects
}

/// The same towards the first place.
fn shift_back(row: &[u8]) -> Vec<Effect> {
    let row: Vec<u8> = row.iter().rev().copied().collect();
    shift(&row)
}

/// A step so many times.
fn times(step: u8, count: u8) -> Vec<u8> {
    vec![step; usize::from(count)]
}
