//! The oracle against itself: its walk against every case there is.

use crate::former::{with_sets_winning, MOVES};
use conformance::encode;
use conformance::gen::{right_task, task, Rng};
use conformance::model::{Action, Formula, Line, Literal};
use conformance::oracle::{
    self, closes, conditions, lowest_failing, walk, End, Outcome, Part, Task, Verdict,
};
use conformance::version::{Version, VERSION_2};

/// Every case, each before the ones that it splits into, no before yes.
fn every_case(facts: usize) -> Vec<Vec<bool>> {
    let mut cases = vec![Vec::new()];
    for k in 1..=facts {
        for n in 0..1u32 << k {
            cases.push((0..k).rev().map(|bit| n >> bit & 1 == 1).collect());
        }
    }
    // In the order of lists of values, a case comes before its parts.
    cases.sort();
    cases
}

/// The cases whose parents are all open, up to the lowest failing state.
fn visited(task: &Task) -> Vec<Vec<bool>> {
    let failing = lowest_failing(task).map(|(state, _)| state);
    let version = &task.problem.version;
    let facts = task.problem.facts.into();
    let open_above = |case: &[bool]| (0..case.len()).all(|k| closes(task, &case[..k]).is_none());
    let mut visited: Vec<Vec<bool>> = every_case(facts)
        .into_iter()
        .filter(|case| open_above(case))
        .collect();
    let last = visited
        .iter()
        .position(|case| case.len() == facts && Some(version.number(case)) == failing);
    if let Some(last) = last {
        visited.truncate(last + 1);
    }
    visited
}

/// Mostly right in even rounds.
fn any_task(rng: &mut Rng, version: &Version, round: usize) -> Task {
    if round.is_multiple_of(2) {
        right_task(rng, version)
    } else {
        task(rng, version)
    }
}

of_each_version! {
    the_walk_visits_the_cases_whose_parents_are_open,
    sound_blocks_are_read_back,
    no_conflict_is_a_precondition,
}

fn the_walk_visits_the_cases_whose_parents_are_open(version: &Version) {
    let mut rng = Rng::new(0x0ac1e);
    let mut rights = 0;
    for round in 0..2_000 {
        let task = any_task(&mut rng, version, round);
        if task.problem.facts > 8 || task.plan.len() > 20 {
            continue;
        }
        let visited = visited(&task);
        let walk = walk(&task, u64::MAX);
        assert_eq!(walk.visits, visited.len() as u64);
        let lines: Vec<Line> = visited
            .iter()
            .filter_map(|case| {
                Some(Line {
                    kind: closes(&task, case)?,
                    k: case.len() as u8,
                    value: task.problem.version.number(case),
                })
            })
            .collect();
        assert_eq!(walk.lines, lines);
        if let End::Covered = walk.end {
            assert_eq!(walk.visits, 2 * lines.len() as u64 - 1);
            rights += 1;
        }
    }
    assert!(rights > 300, "{rights} right plans");
}

fn sound_blocks_are_read_back(version: &Version) {
    let mut rng = Rng::new(0xbac4);
    for _ in 0..2_000 {
        let task = task(&mut rng, version);
        let (problem, plan) = (encode::problem(&task.problem), encode::plan(&task.plan));
        assert_eq!(oracle::read_problem(&problem), Ok(task.problem));
        assert_eq!(
            oracle::read_plan(&problem, &plan),
            Ok(task.plan.len() as u64)
        );
        assert_eq!(
            oracle::judge(&problem, &plan, 0),
            Ok(Verdict::Undecided { visits: 0 })
        );
    }
}

/// In version 2 a state is a whole word. So the end of a full cover is no word, and
/// no shift or sum may lose it.
#[test]
fn a_state_can_be_a_whole_word() {
    assert_eq!(VERSION_2.numbers(), u128::from(u64::MAX) + 1);
    assert_eq!(VERSION_2.covered(0), VERSION_2.numbers());
    assert_eq!(VERSION_2.covered(64), 1);
    assert_eq!((VERSION_2.bit(0), VERSION_2.bit(63)), (1 << 63, 1));
    assert_eq!(VERSION_2.number(&[true; 64]), u64::MAX);
    assert_eq!(VERSION_2.values(u64::MAX, 64), [true; 64]);
}

/// What a formula denies.
fn denial(formula: &Formula) -> Formula {
    match formula {
        Formula::Literal(Literal { fact, denied }) => Formula::Literal(Literal {
            fact: *fact,
            denied: !denied,
        }),
        Formula::Group(kind, members) => {
            Formula::Group(kind.other(), members.iter().map(denial).collect())
        }
    }
}

/// Each fact with both entries, and its conditions.
fn pairs(action: &Action) -> Vec<(u8, [&Formula; 2])> {
    (0..64)
        .filter_map(|fact| match conditions(action, fact) {
            [Some(set), Some(clear)] => Some((fact, [set, clear])),
            _ => None,
        })
        .collect()
}

/// The action with a precondition that has the former one as its member 0, and
/// then asks of each such fact that one condition is false.
fn asking(action: &Action) -> Action {
    let apart = pairs(action)
        .into_iter()
        .map(|(_, conditions)| Formula::any(conditions.map(denial)));
    let members = [action.precondition.clone()].into_iter().chain(apart);
    Action {
        precondition: Formula::all(members),
        ..action.clone()
    }
}

/// That no fact is set and cleared at once is as good as a precondition: the same cases
/// are closed, and the first false member of that precondition names the fact.
fn no_conflict_is_a_precondition(version: &Version) {
    let mut rng = Rng::new(0xa5c);
    let (mut rights, mut facts_named) = (0, 0);
    for round in 0..2_000 {
        let task = any_task(&mut rng, version, round);
        if task.problem.facts > 8 || task.plan.len() > 20 {
            continue;
        }
        let mut asked = task.clone();
        asked.problem.actions = task.problem.actions.iter().map(asking).collect();
        let former = with_sets_winning(&asked).expect("there is room for twice eight facts");

        let walked = walk(&task, u64::MAX);
        let former_walk = walk(&former, u64::MAX);
        assert_eq!(walked.lines, former_walk.lines);
        let Some((state, outcome)) = lowest_failing(&task) else {
            assert_eq!(walked.visits, former_walk.visits);
            rights += 1;
            continue;
        };
        let mut start = version.values(state, task.problem.facts);
        start.resize(former.problem.facts.into(), false);
        match (outcome, oracle::outcome(&former, &start)) {
            (Outcome::Missed, Outcome::Missed) => {}
            (
                Outcome::Blocked { step, part },
                Outcome::Blocked {
                    step: former_step,
                    part: Part::Member(member),
                },
            ) => {
                assert_eq!(former_step, step * u64::from(MOVES));
                let action = &task.problem.actions[usize::from(task.plan[step as usize])];
                match (part, member.checked_sub(1)) {
                    (Part::Member(_), None) => {}
                    (Part::Fact(fact), Some(pair)) => {
                        assert_eq!(fact, u64::from(pairs(action)[pair as usize].0));
                        facts_named += 1;
                    }
                    other => panic!("{other:?}"),
                }
            }
            other => panic!("{other:?}"),
        }
    }
    assert!(rights > 300 && facts_named > 50, "{rights} {facts_named}");
}
