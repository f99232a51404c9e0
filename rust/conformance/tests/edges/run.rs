//! Running one state.

use conformance::harness::Case;
use conformance::harness::Operation::Run;
use conformance::model::{Formula, Problem};
use conformance::version::Version;

use super::problems::{clearing_all, last_of_all, longest, needs_fact_0_at_255, nested, plain};
use super::{case_of, expect};

#[track_caller]
fn runs(problem: &Problem, steps: &[u8], state: u64, named: &[u64]) {
    let case = Case {
        state,
        ..case_of(problem, steps)
    };
    expect(Run, &case, named);
}

of_each_version! {
    an_action_of_the_most_effects,
    a_goal_of_depth_8,
    the_last_action_of_a_problem_of_32768_bytes,
    a_step_is_blocked_at_255,
    states_of_the_most_facts,
    states_of_a_fact_less,
}

fn an_action_of_the_most_effects(version: &Version) {
    let mut problem = clearing_all(version);
    problem.goal = Formula::all((0..version.most_facts).map(Formula::not));
    runs(&problem, &[0], 0, &[1]);
    runs(&problem, &[0], highest(version), &[1]);
}

fn a_goal_of_depth_8(version: &Version) {
    let mut problem = plain(version, 1, 0);
    problem.initial = nested(8);
    problem.goal = nested(8);
    runs(&problem, &[], version.bit(0), &[1]);
}

fn the_last_action_of_a_problem_of_32768_bytes(version: &Version) {
    let (problem, last) = longest(version);
    runs(&problem, &last, version.bit(0), &[1]);
}

fn a_step_is_blocked_at_255(version: &Version) {
    let (problem, steps) = needs_fact_0_at_255(version);
    runs(&problem, &steps, 0, &[3, 255, 0, 0]);
}

/// The state in which all facts are true that there can be.
fn highest(version: &Version) -> u64 {
    match version.byte {
        1 => (1 << 48) - 1,
        _ => u64::MAX,
    }
}

fn states_of_the_most_facts(version: &Version) {
    let problem = last_of_all(version);
    let run = |state, named: &[u64]| runs(&problem, &[], state, named);
    run(1, &[1]);
    run(0, &[2]);
    run(highest(version), &[1]);
    run(highest(version) - 1, &[2]);
    // In version 2 every number is a state.
    let no_state = |state| match version.byte {
        1 => run(state, &[0, 40, 0]),
        _ => run(state, &[1 + (state + 1) % 2]),
    };
    for state in [1 << 48, (1 << 48) + 1, 1 << 63, u64::MAX, u64::MAX - 1] {
        no_state(state);
    }
}

/// One fact less: the lowest bit is past them.
fn states_of_a_fact_less(version: &Version) {
    let problem = plain(version, version.most_facts - 1, 0);
    for (state, named) in [
        (0, &[1][..]),
        (2, &[1]),
        (highest(version) - 1, &[1]),
        (highest(version), &[0, 40, 0]),
        (1, &[0, 40, 0]),
        (u64::MAX, &[0, 40, 0]),
    ] {
        runs(&problem, &[], state, named);
    }
}
