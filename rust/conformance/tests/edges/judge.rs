//! Judging with a grant.

use conformance::harness::Case;
use conformance::harness::Operation::Judge;
use conformance::model::{Formula, Problem};
use conformance::version::Version;

use super::problems::{
    last_of_all, longest, needs_fact_0_at_255, of_a_line_too_many, of_most_lines, right_after_31,
    wrong_after_6,
};
use super::{case_of, expect};

#[track_caller]
fn judges(problem: &Problem, steps: &[u8], named: &[u64]) {
    expect(Judge, &case_of(problem, steps), named);
}

of_each_version! {
    the_last_action_of_a_problem_of_32768_bytes,
    a_step_is_blocked_at_255,
    states_of_the_most_facts,
    lists_of_the_most_lines_and_one_more,
    grants_at_the_edge_of_the_visits,
}

fn the_last_action_of_a_problem_of_32768_bytes(version: &Version) {
    let (problem, last) = longest(version);
    judges(&problem, &last, &[2, 2, 0, 3, 0, 0, 0]);
}

fn a_step_is_blocked_at_255(version: &Version) {
    let (problem, steps) = needs_fact_0_at_255(version);
    judges(&problem, &steps, &[2, 2, 0, 3, 255, 0, 0]);
}

fn states_of_the_most_facts(version: &Version) {
    let most = version.most_facts;
    let (lines, highest) = match version.byte {
        1 => (49, (1 << 48) - 1),
        _ => (65, u64::MAX),
    };
    // The walk goes down to the last fact before it knows.
    let mut problem = last_of_all(version);
    judges(&problem, &[], &[2, lines, 0, 2]);
    problem.initial = Formula::all((0..most).map(Formula::fact));
    judges(&problem, &[], &[1, 2 * lines - 1, lines]);
    problem.initial = Formula::all((0..most - 1).map(Formula::fact));
    judges(&problem, &[], &[2, 2 * lines - 2, highest - 1, 2]);
    // The highest state of all fails.
    problem.goal = Formula::not(most - 1);
    judges(&problem, &[], &[2, 2 * lines - 1, highest, 2]);
    problem.initial = Formula::all((0..most).map(Formula::fact));
    judges(&problem, &[], &[2, 2 * lines - 1, highest, 2]);
}

fn lists_of_the_most_lines_and_one_more(version: &Version) {
    let (lines, visits) = match version.byte {
        1 => (8_191, 16_381),
        _ => (6_553, 13_105),
    };
    judges(&of_most_lines(version), &[], &[1, visits, lines]);
    judges(
        &of_a_line_too_many(version),
        &[],
        &[1, visits + 2, lines + 1],
    );
}

fn grants_at_the_edge_of_the_visits(version: &Version) {
    let judges = |problem: &Problem, grant: u64, named: &[u64]| {
        let case = Case {
            grant,
            ..case_of(problem, &[])
        };
        expect(Judge, &case, named);
    };
    let state = version.bit(1);
    for (problem, visits, named) in [
        (right_after_31(version), 31, &[1, 31, 16][..]),
        (wrong_after_6(version), 6, &[2, 6, state, 2]),
    ] {
        for grant in 0..visits {
            judges(&problem, grant, &[3, grant]);
        }
        for grant in [visits, visits + 1, u64::MAX - 1, u64::MAX] {
            judges(&problem, grant, named);
        }
    }
}
