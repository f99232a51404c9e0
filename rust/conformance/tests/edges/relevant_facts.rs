//! The start facts that a reached run rests on.

use conformance::harness::Case;
use conformance::harness::Operation::RelevantFacts;
use conformance::model::{Effect, Formula, Problem};
use conformance::trial::with_plan;
use conformance::version::Version;

use super::problems::{
    clearing_all, last_of_all, longest, needs_fact_0_at_255, nested, plain, wide,
};
use super::{case_of, expect};

/// The state in which all facts are true that there can be.
fn all(version: &Version) -> u64 {
    match version.byte {
        1 => (1 << 48) - 1,
        _ => u64::MAX,
    }
}

/// The bytes of the longest run.
fn longest_work(version: &Version) -> usize {
    match version.byte {
        1 => 12_336,
        _ => 16_448,
    }
}

/// Tells with a work area of this length.
#[track_caller]
fn tells(case: &Case, state: u64, work: usize, named: &[u64]) {
    let case = Case {
        state,
        work,
        ..case.clone()
    };
    expect(RelevantFacts, &case, named);
}

/// Told in an area of just these bytes and in longer ones, and in no shorter one.
#[track_caller]
fn needs(problem: &Problem, steps: &[u8], state: u64, work: usize, set: u64) {
    let case = case_of(problem, steps);
    for short in [0, work / 2, work - 1] {
        tells(&case, state, short, &[0, 42, 0]);
    }
    for enough in [
        work,
        work + 1,
        work + 100,
        longest_work(&problem.version) + 1,
    ] {
        tells(&case, state, enough, &[1, set]);
    }
}

of_each_version! {
    work_areas_of_plans_of_0_1_and_256_steps,
    work_areas_of_1_and_the_most_facts,
    sets_of_the_most_facts,
    an_action_of_the_most_effects,
    a_formula_of_depth_8_and_the_longest_problem,
    a_run_that_is_not_reached,
    no_state_of_the_problem_comes_first,
    what_is_refused_in_turn,
}

fn work_areas_of_plans_of_0_1_and_256_steps(version: &Version) {
    let problem = plain(version, 3, 1);
    needs(&problem, &[], 0, 3, 0);
    needs(&problem, &[0], 0, 6, 0);
    needs(&problem, &[0; 255], 0, 768, 0);
    needs(&problem, &[0; 256], 0, 771, 0);
    let (problem, steps) = needs_fact_0_at_255(version);
    needs(&problem, &steps, version.bit(0), 257, version.bit(0));
}

fn work_areas_of_1_and_the_most_facts(version: &Version) {
    needs(&plain(version, 1, 1), &[0], version.bit(0), 2, 0);
    let problem = plain(version, version.most_facts, 1);
    let two_rows = match version.byte {
        1 => 96,
        _ => 128,
    };
    needs(&problem, &[0], all(version), two_rows, 0);
    needs(&problem, &[0; 256], 1, longest_work(version), 0);
}

fn sets_of_the_most_facts(version: &Version) {
    let most = version.most_facts;
    let all = all(version);
    let told = |problem: &Problem, steps: &[u8], state, set| {
        tells(
            &case_of(problem, steps),
            state,
            longest_work(version),
            &[1, set],
        );
    };
    told(&last_of_all(version), &[], 1, 1);
    told(&last_of_all(version), &[], all, 1);
    for state in [0, 1, version.bit(0), all] {
        told(&wide(version, most), &[], state, all);
    }
    // Each fact alone, from the goal and by a precondition.
    for fact in 0..most {
        let bit = version.bit(fact);
        let mut problem = plain(version, most, 1);
        problem.goal = Formula::not(fact);
        told(&problem, &[0; 3], all - bit, bit);
        problem.goal = Formula::always();
        problem.actions[0].precondition = Formula::fact(fact);
        told(&problem, &[0; 3], bit, bit);
    }
}

fn an_action_of_the_most_effects(version: &Version) {
    let (most, last) = (version.most_facts, version.most_facts - 1);
    let all = all(version);
    // Nothing is asked for; but each fact has both entries, and one names it.
    let mut problem = clearing_all(version);
    let row = usize::from(most);
    tells(&case_of(&problem, &[0]), all, 2 * row, &[1, all]);
    // Every fact is set by the one after it, and the last by itself.
    let effects = &mut problem.actions[0].effects;
    effects.truncate(row);
    for (fact, effect) in (1..=most).zip(effects) {
        effect.condition = Formula::fact(fact.min(last));
    }
    problem.goal = Formula::fact(0);
    let set = |fact| [1, version.bit(fact)];
    for steps in [0, 1, last.into(), row, 255, 256] {
        let case = case_of(&problem, &vec![0; steps]);
        tells(
            &case,
            all,
            row * (steps + 1),
            &set(steps.min(last.into()) as u8),
        );
    }
}

fn a_formula_of_depth_8_and_the_longest_problem(version: &Version) {
    let mut problem = plain(version, 1, 0);
    problem.goal = nested(8);
    needs(&problem, &[], version.bit(0), 1, version.bit(0));
    let (problem, last) = longest(version);
    needs(&problem, &last, version.bit(0), 2, version.bit(0));
}

fn a_run_that_is_not_reached(version: &Version) {
    // Missed, blocked by a member, and blocked by a fact.
    let missed = case_of(&last_of_all(version), &[]);
    let (problem, steps) = needs_fact_0_at_255(version);
    let unmet = case_of(&problem, &steps);
    let mut problem = plain(version, 2, 1);
    problem.actions[0].effects = vec![
        Effect::sets(1, Formula::always()),
        Effect::clears(1, Formula::always()),
    ];
    let conflict = case_of(&problem, &[0]);
    for case in [missed, unmet, conflict] {
        // It comes before a work area that is short.
        for work in [0, 1, longest_work(version)] {
            tells(&case, 0, work, &[0, 41, 0]);
        }
    }
}

fn no_state_of_the_problem_comes_first(version: &Version) {
    let fact_3 = version.bit(3);
    // In version 1 a number may go past its 48 bits too.
    let top = match version.byte {
        1 => 1 << 63,
        _ => fact_3,
    };
    for state in [fact_3, 1, 1 << 48, top, u64::MAX] {
        // Of 0, 1 the run is reached or missed by the other bits.
        for steps in [&[0, 1][..], &[]] {
            for work in [0, 9] {
                tells(&with_plan(version, steps), state, work, &[0, 40, 0]);
            }
        }
    }
}

fn what_is_refused_in_turn(version: &Version) {
    let told = |problem: &[u8], plan: &[u8], state, work, named: &[u64]| {
        let case = Case {
            problem: problem.to_vec(),
            plan: plan.to_vec(),
            ..Case::default()
        };
        tells(&case, state, work, named);
    };
    let sound = with_plan(version, &[0, 1]);
    let (problem, plan) = (&sound.problem, &sound.plan);
    let strange = &[1, 0, 0, 0, 1, 2];
    let reached = version.bit(1);
    told(&[1], strange, 1, 0, &[0, 11, 1]);
    told(problem, strange, 1, 0, &[0, 34, 5]);
    told(problem, plan, 1, 0, &[0, 40, 0]);
    told(problem, plan, 0, 0, &[0, 41, 0]);
    told(problem, plan, reached, 8, &[0, 42, 0]);
    told(problem, plan, reached, 9, &[1, reached]);
}
