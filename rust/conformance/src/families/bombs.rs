//! Bombs in the toilet: any of the packages may hold one. Dunking disarms a
//! package and clogs the toilet, and flushing clears it.

use super::{action, version_for};
use crate::model::{Action, Effect, Formula, Problem};

/// Fact i: package i holds a bomb. The last fact: the toilet is clogged.
pub fn problem(packages: u8) -> Problem {
    let clogged = packages;
    let dunk = |package: u8| Action {
        precondition: Formula::not(clogged),
        ..action(vec![
            Effect::clears(package, Formula::always()),
            Effect::sets(clogged, Formula::always()),
        ])
    };
    let mut actions: Vec<Action> = (0..packages).map(dunk).collect();
    actions.push(action(vec![Effect::clears(clogged, Formula::always())]));
    Problem {
        version: version_for(packages + 1),
        facts: packages + 1,
        initial: Formula::any((0..packages).map(Formula::fact)),
        goal: Formula::all((0..packages).map(Formula::not)),
        actions,
    }
}

/// Flush and dunk, package by package.
pub fn plan(packages: u8) -> Vec<u8> {
    let flush = packages;
    (0..packages).flat_map(|package| [flush, package]).collect()
}
