//! Second problems for a merge.

use super::damage::{damaged, scribbled, unsound};
use super::formulas::formula_of_size;
use super::problems::{right_task, task};
use super::Rng;
use crate::encode;
use crate::families::idle;
use crate::harness::Case;
use crate::model::{Action, Formula, Problem};
use crate::version::{
    Version, MOST_ACTIONS, MOST_FORMULA_BYTES, MOST_PROBLEM_BYTES, VERSIONS, VERSION_2,
};

/// A problem to stand beside this one: mostly sound and small, of either version; now and
/// then damaged, or such that both together are near a limit or past it.
pub fn second(rng: &mut Rng, first: &Problem) -> Vec<u8> {
    let version = &rng.pick(&VERSIONS);
    match rng.below(200) {
        // As long as a block may be, and so dear to make, to merge and to compare: a few of them do.
        0 if rng.chance(1, 8) => {
            let size = MOST_PROBLEM_BYTES - rng.below(200);
            encode::problem(&problem_of_size(*version, size))
        }
        1..=29 => damaged_problem(rng, version),
        30..=39 => encode::problem(first),
        40..=46 => {
            let facts = beside(rng, first.facts.into(), VERSION_2.most_facts.into());
            encode::problem(&idle(VERSION_2, facts.max(1) as u8))
        }
        47..=53 => {
            let mut problem = task(rng, version).problem;
            let actions = beside(rng, first.actions.len(), MOST_ACTIONS);
            let asks = Formula::fact(0);
            problem.actions = vec![asking(asks); actions];
            encode::problem(&problem)
        }
        54..=60 => {
            let mut problem = task(rng, version).problem;
            let bytes = encode::bare(&first.goal).len();
            let size = beside(rng, bytes, MOST_FORMULA_BYTES).max(1);
            problem.goal = formula_of_size(size);
            encode::problem(&problem)
        }
        61..=66 => encode::problem(&right_task(rng, version).problem),
        _ => encode::problem(&task(rng, version).problem),
    }
}

/// A problem with a fault in it, or bytes around formulas that nobody meant. Some of them
/// are sound all the same.
pub fn damaged_problem(rng: &mut Rng, version: &Version) -> Vec<u8> {
    let mut problem = task(rng, version).problem;
    match rng.below(6) {
        0 => scribbled(rng, version),
        1 | 2 => {
            unsound(rng, &mut problem);
            encode::problem(&problem)
        }
        _ => {
            let block = encode::problem(&problem);
            damaged(rng, version, &block, MOST_PROBLEM_BYTES)
        }
    }
}

/// What is left of the most, or a little less or more, but not over the most.
fn beside(rng: &mut Rng, taken: usize, most: usize) -> usize {
    (most - taken + rng.below(5)).saturating_sub(2).min(most)
}

/// An action that does nothing.
fn asking(precondition: Formula) -> Action {
    let effects = Vec::new();
    Action {
        precondition,
        effects,
    }
}

/// A problem of exactly so many bytes, 15 or 19 and more, with one fact and as many idle
/// actions as that takes. Both formulas are the empty "all".
pub fn problem_of_size(version: Version, size: usize) -> Problem {
    let mut problem = idle(version, 1);
    let mut left = size - encode::problem(&problem).len();
    while left > 0 {
        // An action is three bytes and its precondition.
        let part = if left <= MOST_FORMULA_BYTES + 3 {
            left - 3
        } else {
            MOST_FORMULA_BYTES - 3
        };
        problem.actions.push(asking(formula_of_size(part)));
        left -= part + 3;
    }
    problem
}

/// Two problems that make one at four limits at once, or one past them: 64 facts, 64
/// actions, an initial formula of 1,024 bytes and a block of 32,768.
pub fn at_limits(versions: [Version; 2], past: [bool; 4]) -> [Problem; 2] {
    let [facts, actions, formula, block] = past.map(usize::from);
    let hall = |version, more: [usize; 3]| Problem {
        initial: formula_of_size(512 + more[2]),
        actions: vec![asking(formula_of_size(490)); 32 + more[1]],
        ..idle(version, (32 + more[0]) as u8)
    };
    let [first, second] = versions;
    let mut halls = [
        hall(first, [0; 3]),
        hall(second, [facts, actions, 2 + formula]),
    ];
    // Both begin with five bytes and two counts; of each pair of formulas, which are
    // "all", one length and one mark with its count are left.
    let length = |halls: &[Problem; 2]| {
        let lengths = halls.each_ref().map(|hall| encode::problem(hall).len());
        lengths[0] + lengths[1] - 15
    };
    let size = MOST_PROBLEM_BYTES + block + 490 - length(&halls);
    halls[0].actions[0].precondition = formula_of_size(size);
    assert_eq!(length(&halls), MOST_PROBLEM_BYTES + block);
    halls
}

/// The merge of two problems with buffers of so many bytes, for the block and for the
/// numbers.
pub fn merge_case(first: &Problem, second: &Problem, [room, places]: [usize; 2]) -> Case {
    Case {
        problem: encode::problem(first),
        second: encode::problem(second),
        block_room: room,
        places,
        ..Case::default()
    }
}
