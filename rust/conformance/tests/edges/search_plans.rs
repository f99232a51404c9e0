//! Trying every short plan.

use conformance::answer::{plan_words, words};
use conformance::encode;
use conformance::harness::Operation::SearchPlans;
use conformance::harness::{check, Case};
use conformance::model::{Effect, Formula, Problem};
use conformance::trial;
use conformance::version::{Version, LONGEST_SEARCHED, MOST_SEARCHED};
use larkhammock::raw;

use super::problems::{last_of_all, longest, plain, right_after_31, wrong_after_6};
use super::{case_of, expect};
use crate::support::Library;

#[track_caller]
fn searches(problem: &Problem, longest: u64, grant: u64, named: &[u64]) {
    let case = Case {
        longest,
        shared_grant: grant,
        ..case_of(problem, &[])
    };
    expect(SearchPlans, &case, named);
}

/// Answered with these visits and with more, and undecided with one less and with
/// none.
#[track_caller]
fn needs(problem: &Problem, longest: u64, visits: u64, named: &[u64]) {
    for grant in [visits, visits + 1, u64::MAX - 1, u64::MAX] {
        searches(problem, longest, grant, named);
    }
    // Which plan that is, the oracle says.
    let short = Case {
        longest,
        shared_grant: visits - 1,
        ..case_of(problem, &[])
    };
    let answer = check(&Library, SearchPlans, &short).expect("both say the same");
    assert_eq!(answer[..2], [3, visits - 1]);
    searches(problem, longest, 0, &[3, 0]);
}

fn found(visits: u64, plan: &[u8]) -> Vec<u64> {
    plan_words(1, visits, plan)
}

fn undecided(grant: u64, plan: &[u8]) -> Vec<u64> {
    plan_words(3, grant, plan)
}

/// So many actions, none of which does anything, and a goal that no plan reaches:
/// each is wrong after two visits.
fn hopeless(version: &Version, actions: usize) -> Problem {
    let mut problem = plain(version, 1, actions);
    problem.goal = Formula::fact(0);
    problem
}

/// What is wanted are these steps in this order: each sets a fact if that of the
/// step before is true, all are false at the start, and the last is the goal. No
/// shorter plan is right, and no other of this length. The right one is seen to be
/// at the first look. Any other fails from the lowest state, and the walk must fix
/// all facts to see that: one visit more than there are steps.
fn wants(version: &Version, steps: &[u8], actions: usize) -> Problem {
    let facts = steps.len() as u8;
    let mut problem = plain(version, facts.max(1), actions);
    problem.initial = Formula::all((0..facts).map(Formula::not));
    for (fact, step) in (0..).zip(steps) {
        let before = match fact {
            0 => Formula::always(),
            _ => Formula::fact(fact - 1),
        };
        let effect = Effect::sets(fact, before);
        problem.actions[usize::from(*step)].effects.push(effect);
        problem.goal = Formula::fact(fact);
    }
    problem
}

/// The visits of a search for these steps when so many plans come before them.
fn visits_after(plans: u64, steps: &[u8]) -> u64 {
    plans * (steps.len() as u64 + 1) + 1
}

of_each_version! {
    with_no_action_there_is_the_empty_plan_alone,
    with_one_action_there_is_one_plan_of_each_length,
    a_plan_is_found_at_every_length,
    each_plan_has_its_place,
    grants_at_the_edge_of_each_plan,
    with_no_start_state_the_empty_plan_is_right,
    up_to_4_steps_of_31_actions_are_searched_to_the_end,
    up_to_3_steps_of_64_actions_are_searched_to_the_end,
    a_million_plans_and_more,
    a_length_over_4,
    the_problem_is_refused_first,
    problems_of_the_most_facts_and_of_32768_bytes,
}

fn with_no_action_there_is_the_empty_plan_alone(version: &Version) {
    for longest in 0..=4 {
        needs(&plain(version, 1, 0), longest, 1, &found(1, &[]));
        needs(&right_after_31(version), longest, 31, &found(31, &[]));
        needs(&hopeless(version, 0), longest, 2, &[2, 2]);
        needs(&wrong_after_6(version), longest, 6, &[2, 6]);
    }
}

fn with_one_action_there_is_one_plan_of_each_length(version: &Version) {
    for longest in 0..=4 {
        let visits = 2 * (longest + 1);
        needs(&hopeless(version, 1), longest, visits, &[2, visits]);
        for grant in 0..visits {
            // All steps are 0: only its length tells which plan it is.
            let plan = vec![0; grant as usize / 2];
            searches(
                &hopeless(version, 1),
                longest,
                grant,
                &undecided(grant, &plan),
            );
        }
    }
}

fn a_plan_is_found_at_every_length(version: &Version) {
    for length in 0..=4 {
        let steps = vec![0; length];
        let problem = wants(version, &steps, 1);
        let visits = visits_after(length as u64, &steps);
        for longest in 0..=4 {
            if longest < length as u64 {
                let visits = (longest + 1) * (length as u64 + 1);
                needs(&problem, longest, visits, &[2, visits]);
            } else {
                needs(&problem, longest, visits, &found(visits, &steps));
            }
        }
    }
}

/// Every plan of three actions is found, and has as many before it as there should
/// be: by length, and then by the first step, the second and so on.
fn each_plan_has_its_place(version: &Version) {
    let mut before = 0;
    let mut expect_next = |steps: &[u8]| {
        let longest = steps.len() as u64;
        let visits = visits_after(before, steps);
        searches(
            &wants(version, steps, 3),
            longest,
            visits,
            &found(visits, steps),
        );
        before += 1;
    };
    expect_next(&[]);
    for a in 0..3 {
        expect_next(&[a]);
    }
    for a in 0..3 {
        for b in 0..3 {
            expect_next(&[a, b]);
        }
    }
    for a in 0..3 {
        for b in 0..3 {
            for c in 0..3 {
                expect_next(&[a, b, c]);
            }
        }
    }
    for a in 0..3 {
        for b in 0..3 {
            for c in 0..3 {
                for d in 0..3 {
                    expect_next(&[a, b, c, d]);
                }
            }
        }
    }
    assert_eq!(before, 1 + 3 + 9 + 27 + 81);
}

/// Every grant, from none to one visit more than the search needs.
fn grants_at_the_edge_of_each_plan(version: &Version) {
    let plans: [&[u8]; 6] = [&[], &[0], &[1], &[0, 0], &[0, 1], &[1, 0]];
    let problem = wants(version, &[1, 0], 2);
    for grant in 0..16 {
        // Three visits for each; the last, which is right, needs one.
        let plan = plans[grant as usize / 3];
        searches(&problem, 2, grant, &undecided(grant, plan));
        searches(&problem, 4, grant, &undecided(grant, plan));
        if grant < 9 {
            searches(&problem, 1, grant, &undecided(grant, plan));
        }
    }
    for grant in [16, 17, u64::MAX] {
        searches(&problem, 2, grant, &found(16, &[1, 0]));
        searches(&problem, 4, grant, &found(16, &[1, 0]));
    }
    for grant in [9, 10, u64::MAX] {
        searches(&problem, 1, grant, &[2, 9]);
    }
}

fn with_no_start_state_the_empty_plan_is_right(version: &Version) {
    for actions in [0, 1, 31] {
        let mut problem = hopeless(version, actions);
        problem.initial = Formula::never();
        for longest in 0..=4 {
            needs(&problem, longest, 1, &found(1, &[]));
        }
    }
}

/// The most plans that can be tried: 1 + 31 + 961 + 29,791 + 923,521.
fn up_to_4_steps_of_31_actions_are_searched_to_the_end(version: &Version) {
    let problem = hopeless(version, 31);
    searches(&problem, 4, u64::MAX, &[2, 2 * 954_305]);
    let last = [30, 30, 30, 30];
    let one_less = 2 * 954_305 - 1;
    let block = encode::problem(&problem);
    let answer = raw::search_plans(&block, 4, one_less).word;
    assert_eq!(answer, words(&undecided(one_less, &last)));

    // The right plan is the last of all.
    let block = encode::problem(&wants(version, &last, 31));
    let visits = visits_after(954_304, &last);
    let answer = raw::search_plans(&block, 4, visits).word;
    assert_eq!(answer, words(&found(visits, &last)));
    let answer = raw::search_plans(&block, 4, visits - 1).word;
    assert_eq!(answer, words(&undecided(visits - 1, &last)));
}

/// 1 + 64 + 4,096 + 262,144.
fn up_to_3_steps_of_64_actions_are_searched_to_the_end(version: &Version) {
    searches(&hopeless(version, 64), 3, u64::MAX, &[2, 2 * 266_305]);
    let last = [63, 63, 63];
    let block = encode::problem(&wants(version, &last, 64));
    let visits = visits_after(266_304, &last);
    let answer = raw::search_plans(&block, 3, u64::MAX).word;
    assert_eq!(answer, words(&found(visits, &last)));
}

fn a_million_plans_and_more(version: &Version) {
    for actions in 0..=64 {
        for longest in 0..=4 {
            let named = match (actions, longest) {
                (32.., 4) => vec![0, 44, 0],
                _ => undecided(0, &[]),
            };
            searches(&hopeless(version, actions), longest, 0, &named);
        }
    }
    // It does not matter that the first plan is right, nor what is granted.
    for grant in [0, 1, u64::MAX] {
        searches(&plain(version, 1, 31), 4, grant.max(1), &found(1, &[]));
        searches(&plain(version, 1, 32), 4, grant, &[0, 44, 0]);
        searches(
            &plain(version, version.most_facts, 64),
            4,
            grant,
            &[0, 44, 0],
        );
    }
    assert_eq!(MOST_SEARCHED, larkhammock::MOST_SEARCHED);
}

fn a_length_over_4(version: &Version) {
    let over = [5, 6, 255, 256, 260, 1 << 32, (1 << 32) + 4, 1 << 63];
    for longest in over.into_iter().chain([u64::MAX - 1, u64::MAX]) {
        for grant in [0, 1, u64::MAX] {
            // It comes before too many plans.
            for actions in [0, 1, 31, 32, 64] {
                searches(&plain(version, 1, actions), longest, grant, &[0, 43, 0]);
            }
        }
    }
    assert_eq!(LONGEST_SEARCHED, larkhammock::LONGEST_SEARCHED);
}

fn the_problem_is_refused_first(version: &Version) {
    let sound = trial::problem(version);
    let mut strange = sound.clone();
    strange[0] = 3;
    // Its 65 actions would make too many plans of four steps.
    let crowded = encode::problem(&plain(version, 1, 65));
    for (problem, named) in [
        (&sound[..4], [0, 11, 4]),
        (&strange, [0, 12, 0]),
        (&sound[..36], [0, 13, 1]),
        (&crowded, [0, 16, 6]),
    ] {
        for longest in [0, 4, 5, u64::MAX] {
            let case = Case {
                problem: problem.to_vec(),
                longest,
                ..Case::default()
            };
            expect(SearchPlans, &case, &named);
        }
    }
}

fn problems_of_the_most_facts_and_of_32768_bytes(version: &Version) {
    // The walk goes down to the last fact before it knows.
    let down = match version.byte {
        1 => 49,
        _ => 65,
    };
    let most = version.most_facts;
    let mut problem = last_of_all(version);
    problem.actions = plain(version, most, 2).actions;
    needs(&problem, 2, 7 * down, &[2, 7 * down]);
    problem.actions[1].effects = vec![Effect::sets(most - 1, Formula::always())];
    needs(&problem, 2, 2 * down + 1, &found(2 * down + 1, &[1]));

    let (problem, _) = longest(version);
    assert!(problem.actions.len() < 32);
    needs(&problem, 4, 1, &found(1, &[]));
}
