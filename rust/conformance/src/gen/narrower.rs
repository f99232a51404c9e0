//! Problems that differ in their initial formula alone, where each start state of the
//! second is one of the first.

use super::formulas::formula;
use super::problems::cube;
use super::Rng;
use crate::encode;
use crate::model::{Formula, Kind, Problem};
use crate::oracle::{holds, read_problem};

/// How the start of a problem is made narrower.
#[derive(Clone, Copy, Debug, PartialEq, Eq)]
pub enum Narrowing {
    /// One more formula has to be true. Wherever the formula reads no before that, it
    /// does so after it.
    Added,
    /// Some of the start states, told one by one.
    Told,
    /// The same start states in other words, which say less of a case.
    Reworded,
}

impl Narrowing {
    pub const ALL: [Narrowing; 3] = [Narrowing::Added, Narrowing::Told, Narrowing::Reworded];

    /// The narrower problem, where what comes of it is sound.
    pub fn apply(self, rng: &mut Rng, problem: &Problem) -> Option<Problem> {
        let facts = problem.facts;
        let initial = match self {
            Narrowing::Added => joined(Kind::All, [problem.initial.clone(), formula(rng, facts)]),
            Narrowing::Told => told(rng, problem),
            Narrowing::Reworded => reworded(&problem.initial, rng.below(facts.into()) as u8),
        };
        let narrower = Problem {
            initial,
            ..problem.clone()
        };
        let sound = read_problem(&encode::problem(&narrower)).as_ref() == Ok(&narrower);
        sound.then_some(narrower)
    }
}

/// A group of formulas, those of its own kind taken apart into their members.
fn joined(kind: Kind, formulas: impl IntoIterator<Item = Formula>) -> Formula {
    let members = formulas.into_iter().flat_map(|formula| match formula {
        Formula::Group(inner, members) if inner == kind => members,
        other => vec![other],
    });
    Formula::Group(kind, members.collect())
}

/// Every state of so many facts.
pub fn every_state(facts: u8) -> impl Iterator<Item = Vec<bool>> {
    (0..1u32 << facts).map(move |n| (0..facts).map(|fact| n >> fact & 1 == 1).collect())
}

fn told(rng: &mut Rng, problem: &Problem) -> Formula {
    let starts = every_state(problem.facts).filter(|state| holds(&problem.initial, state));
    let kept: Vec<Formula> = starts
        .filter(|_| rng.chance(1, 2))
        .map(|state| cube(&state))
        .collect();
    Formula::any(kept)
}

/// True where the formula is, whatever the fact is; but unknown in a case that leaves
/// the fact open, where the formula reads no.
fn reworded(formula: &Formula, fact: u8) -> Formula {
    let either = [Formula::fact(fact), Formula::not(fact)];
    Formula::all(either.map(|side| joined(Kind::Any, [formula.clone(), side])))
}
