//! The start facts that a reached run rests on, told where few of its states are kept.

use conformance::harness::Case;
use conformance::harness::Operation::{RelevantFacts, RelevantFactsSparse};
use conformance::model::{Effect, Formula, Problem};
use conformance::trial::with_plan;
use conformance::version::Version;

use super::problems::{last_of_all, needs_fact_0_at_255, plain};
use super::{case_of, expect};

/// Tells with a work area of this length.
#[track_caller]
fn tells(case: &Case, state: u64, sparse_work: usize, named: &[u64]) {
    let case = Case {
        state,
        sparse_work,
        ..case.clone()
    };
    expect(RelevantFactsSparse, &case, named);
}

/// Told in an area of just these bytes and in longer ones, and in no shorter one; and
/// the same as where every state is kept.
#[track_caller]
fn needs(problem: &Problem, steps: &[u8], state: u64, work: usize, set: u64) {
    let case = case_of(problem, steps);
    for short in [0, 1, work / 2, work - 1] {
        tells(&case, state, short, &[0, 42, 0]);
    }
    for enough in [work, work + 1, work + 100, 20_000] {
        tells(&case, state, enough, &[1, set]);
    }
    expect(RelevantFacts, &Case { state, ..case }, &[1, set]);
}

of_each_version! {
    work_areas_of_every_length_at_an_edge,
    work_areas_of_1_and_the_most_facts,
    sets_that_a_step_of_each_stretch_decides,
    a_run_that_is_not_reached,
    what_is_refused_in_turn,
}

fn work_areas_of_every_length_at_an_edge(version: &Version) {
    // The kept rows and 16, of three bytes each.
    let rows = [
        (0, 17),
        (1, 17),
        (15, 17),
        (16, 18),
        (17, 18),
        (31, 18),
        (32, 19),
        (47, 19),
        (48, 20),
        (255, 32),
        (256, 33),
    ];
    for (steps, rows) in rows {
        needs(&plain(version, 3, 1), &vec![0; steps], 0, 3 * rows, 0);
    }
    let (problem, steps) = needs_fact_0_at_255(version);
    needs(&problem, &steps, version.bit(0), 33, version.bit(0));
}

fn work_areas_of_1_and_the_most_facts(version: &Version) {
    needs(&plain(version, 1, 1), &[0], version.bit(0), 17, 0);
    let problem = plain(version, version.most_facts, 1);
    let (shortest, longest) = match version.byte {
        1 => (816, 1_584),
        _ => (1_088, 2_112),
    };
    needs(&problem, &[], 1, shortest, 0);
    needs(&problem, &[0; 256], 1, longest, 0);
}

/// At one step the fact that matters is another one, and so is the state from there on;
/// the steps before and after change nothing.
fn sets_that_a_step_of_each_stretch_decides(version: &Version) {
    let mut problem = plain(version, 3, 2);
    problem.goal = Formula::fact(2);
    problem.actions[1].effects = vec![
        Effect::sets(2, Formula::fact(0)),
        Effect::clears(0, Formula::always()),
    ];
    let start = version.bit(0) + version.bit(1);
    for steps in [1, 15, 16, 17, 31, 32, 33, 255, 256] {
        for at in [0, 14, 15, 16, 17, 30, 31, 32, 254, 255] {
            if at < steps {
                let mut plan = vec![0; steps];
                plan[at] = 1;
                let work = 3 * (steps / 16 + 17);
                needs(&problem, &plan, start, work, version.bit(0));
            }
        }
    }
}

fn a_run_that_is_not_reached(version: &Version) {
    // Missed, blocked by a member, and blocked by a fact.
    let missed = case_of(&last_of_all(version), &[]);
    let (problem, steps) = needs_fact_0_at_255(version);
    let unmet = case_of(&problem, &steps);
    let mut problem = plain(version, 2, 2);
    problem.actions[1].effects = vec![
        Effect::sets(1, Formula::always()),
        Effect::clears(1, Formula::always()),
    ];
    let conflict = case_of(&problem, &[&[0; 32][..], &[1]].concat());
    for case in [missed, unmet, conflict] {
        // It comes before a work area that is short.
        for work in [0, 1, version.most_sparse_work_bytes()] {
            tells(&case, 0, work, &[0, 41, 0]);
        }
    }
}

fn what_is_refused_in_turn(version: &Version) {
    let told = |problem: &[u8], plan: &[u8], state, work, named: &[u64]| {
        let case = Case {
            problem: problem.to_vec(),
            plan: plan.to_vec(),
            ..Case::default()
        };
        tells(&case, state, work, named);
    };
    let sound = with_plan(version, &[0, 1]);
    let (problem, plan) = (&sound.problem, &sound.plan);
    let strange = &[1, 0, 0, 0, 1, 2];
    let reached = version.bit(1);
    told(&[1], strange, 1, 0, &[0, 11, 1]);
    told(problem, strange, 1, 0, &[0, 34, 5]);
    told(problem, plan, 1, 0, &[0, 40, 0]);
    told(problem, plan, 0, 0, &[0, 41, 0]);
    told(problem, plan, reached, 50, &[0, 42, 0]);
    told(problem, plan, reached, 51, &[1, reached]);
}
