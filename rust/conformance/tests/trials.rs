//! Every case of the trial problem in each version, on its bytes.

use crate::support::Library;
use conformance::encode;
use conformance::harness::Operation::*;
use conformance::harness::{self, Case, Operation};
use conformance::model::{Action, Effect, Formula, Problem};
use conformance::trial::{self, by_version, with_plan};
use conformance::version::Version;

/// The states of P in which these facts are true: 1, and 1 and 2.
struct States {
    s010: u64,
    s011: u64,
}

fn states(version: &Version) -> States {
    match version.byte {
        1 => States {
            s010: 0x4000_0000_0000,
            s011: 0x6000_0000_0000,
        },
        _ => States {
            s010: 0x4000_0000_0000_0000,
            s011: 0x6000_0000_0000_0000,
        },
    }
}

#[track_caller]
fn expect(operation: Operation, case: &Case, named: &[u64]) {
    harness::expect(&Library, operation, case, named);
}

/// P as a tree, to be varied.
fn p_tree(version: &Version) -> Problem {
    let sets_2_if = |fact| Action {
        precondition: Formula::always(),
        effects: vec![Effect::sets(2, Formula::fact(fact))],
    };
    Problem {
        version: *version,
        facts: 3,
        initial: Formula::all([
            Formula::any([Formula::fact(0), Formula::fact(1)]),
            Formula::not(2),
        ]),
        goal: Formula::fact(2),
        actions: vec![sets_2_if(0), sets_2_if(1)],
    }
}

fn with_problem(problem: &Problem, steps: &[u8]) -> Case {
    Case {
        problem: encode::problem(problem),
        ..with_plan(&problem.version, steps)
    }
}

fn with_list(version: &Version, list: Vec<u8>) -> Case {
    Case {
        list,
        ..with_plan(version, &[0, 1])
    }
}

/// Writing, then following what stands in the buffer up to its length.
#[track_caller]
fn expect_list(case: &Case, list: &[u8], lines: u64) {
    expect(WriteList, case, &[1, list.len() as u64]);
    let mut out = vec![0xee; case.room];
    let length = larkhammock::write_list(&case.problem, &case.plan, case.grant, &mut out);
    assert_eq!(length, Ok(list.len()));
    assert_eq!(&out[..list.len()], list);
    assert!(out[list.len()..].iter().all(|b| *b == 0xee));
    let list = list.to_vec();
    let case = Case {
        list,
        ..case.clone()
    };
    expect(FollowList, &case, &[1, lines]);
}

of_each_version! {
    the_bytes_of_p_are_the_tree_of_p,
    both_actions_are_right,
    action_0_alone_misses_from_010,
    small_grants_leave_it_undecided,
    a_precondition_blocks_at_step_0_member_0,
    a_goal_that_is_always_true_needs_one_line,
    with_no_start_state_every_plan_is_right,
    lists_that_are_like_the_written_one,
    the_list_of_the_other_version_is_refused,
    the_list_with_the_other_version_byte_is_refused,
    a_plan_of_version_2_is_refused,
    a_buffer_one_byte_short_and_one_that_is_enough,
    any_state_can_be_run,
    to_set_and_clear_a_fact_blocks_at_step_0_fact_2,
    both_actions_are_found_by_a_search,
    all_conditions_are_read_before_any_effect,
    unknown_is_neither_no_nor_the_first_completion,
    a_narrower_start_keeps_plans_right_and_not_lists,
}

fn the_bytes_of_p_are_the_tree_of_p(version: &Version) {
    assert_eq!(encode::problem(&p_tree(version)), trial::problem(version));
    assert_eq!(encode::plan(&[0, 1]), trial::hex("01 00000002 00 01"));
    expect(ReadProblem, &with_plan(version, &[]), &[1, 3, 2]);
    expect(ReadPlan, &with_plan(version, &[0, 1]), &[1, 2]);
    expect(ReadPlan, &with_plan(version, &[]), &[1, 0]);
}

fn both_actions_are_right(version: &Version) {
    expect(Judge, &with_plan(version, &[0, 1]), &[1, 5, 3]);
    expect_list(&with_plan(version, &[0, 1]), &trial::list(version), 3);
}

fn action_0_alone_misses_from_010(version: &Version) {
    let States { s010, .. } = states(version);
    for steps in [&[0][..], &[]] {
        expect(Judge, &with_plan(version, steps), &[2, 5, s010, 2]);
        expect(WriteList, &with_plan(version, steps), &[0, 51, 5]);
    }
}

fn small_grants_leave_it_undecided(version: &Version) {
    for grant in [0, 4] {
        let case = Case {
            grant,
            ..with_plan(version, &[0, 1])
        };
        expect(Judge, &case, &[3, grant]);
        expect(WriteList, &case, &[0, 50, grant]);
    }
    let grant = 5;
    let case = Case {
        grant,
        ..with_plan(version, &[0, 1])
    };
    expect(Judge, &case, &[1, 5, 3]);
}

fn a_precondition_blocks_at_step_0_member_0(version: &Version) {
    let States { s010, .. } = states(version);
    let mut problem = p_tree(version);
    problem.actions[0].precondition = Formula::fact(0);
    for (steps, step) in [([0, 1], 0), ([1, 0], 1)] {
        let case = Case {
            state: s010,
            ..with_problem(&problem, &steps)
        };
        expect(Judge, &case, &[2, 5, s010, 3, step, 0, 0]);
        expect(Run, &case, &[3, step, 0, 0]);
    }
}

fn a_goal_that_is_always_true_needs_one_line(version: &Version) {
    let mut problem = p_tree(version);
    problem.goal = Formula::always();
    let case = with_problem(&problem, &[]);
    expect(Judge, &case, &[1, 1, 1]);
    let list = by_version(
        version,
        "01 00000008 01 00 000000000000",
        "02 0000000a 01 00 0000000000000000",
    );
    expect_list(&case, &list, 1);
}

fn with_no_start_state_every_plan_is_right(version: &Version) {
    let mut problem = p_tree(version);
    problem.initial = Formula::never();
    problem.actions[1].precondition = Formula::never();
    let list = by_version(
        version,
        "01 00000008 00 00 000000000000",
        "02 0000000a 00 00 0000000000000000",
    );
    for steps in [&[][..], &[0], &[1], &[1, 1, 0], &[0; 256]] {
        let case = with_problem(&problem, steps);
        expect(Judge, &case, &[1, 1, 1]);
        expect_list(&case, &list, 1);
    }
}

fn lists_that_are_like_the_written_one(version: &Version) {
    let lists = |first: &str, second: &str, named: &[u64]| {
        let list = by_version(version, first, second);
        expect(FollowList, &with_list(version, list), named);
    };
    lists(
        "01 00000018 00 02 000000000000 01 02 400000000000 01 01 800000000000",
        "02 0000001e 00 02 0000000000000000 01 02 4000000000000000 01 01 8000000000000000",
        &[1, 3],
    );
    // The last line split into 10 and 11.
    lists(
        "01 00000020 00 02 000000000000 01 02 400000000000
                     01 02 800000000000 01 02 c00000000000",
        "02 00000028 00 02 0000000000000000 01 02 4000000000000000
                     01 02 8000000000000000 01 02 c000000000000000",
        &[1, 4],
    );
    // The last line dropped.
    lists(
        "01 00000010 00 02 000000000000 01 02 400000000000",
        "02 00000014 00 02 0000000000000000 01 02 4000000000000000",
        &[0, 70, 2],
    );
    // The last two swapped.
    lists(
        "01 00000018 00 02 000000000000 01 01 800000000000 01 02 400000000000",
        "02 0000001e 00 02 0000000000000000 01 01 8000000000000000 01 02 4000000000000000",
        &[0, 68, 1],
    );
    // The first line with kind 1; the others with kind 0.
    lists(
        "01 00000018 01 02 000000000000 01 02 400000000000 01 01 800000000000",
        "02 0000001e 01 02 0000000000000000 01 02 4000000000000000 01 01 8000000000000000",
        &[0, 69, 0],
    );
    lists(
        "01 00000018 00 02 000000000000 00 02 400000000000 01 01 800000000000",
        "02 0000001e 00 02 0000000000000000 00 02 4000000000000000 01 01 8000000000000000",
        &[0, 69, 1],
    );
    lists(
        "01 00000018 00 02 000000000000 01 02 400000000000 00 01 800000000000",
        "02 0000001e 00 02 0000000000000000 01 02 4000000000000000 00 01 8000000000000000",
        &[0, 69, 2],
    );
    // No line.
    lists("01 00000000", "02 00000000", &[0, 70, 0]);
}

/// The list of the other version says the same of the same states, and is none for
/// this problem.
fn the_list_of_the_other_version_is_refused(version: &Version) {
    let other = trial::list(&version.other());
    expect(FollowList, &with_list(version, other), &[0, 71, 0]);
}

/// The length field is looked at after the version.
fn the_list_with_the_other_version_byte_is_refused(version: &Version) {
    let mut list = trial::list(version);
    list[0] = version.other().byte;
    expect(FollowList, &with_list(version, list.clone()), &[0, 71, 0]);
    list.push(0);
    expect(FollowList, &with_list(version, list), &[0, 71, 0]);
}

/// A plan is of version 1 whatever its problem's version is.
fn a_plan_of_version_2_is_refused(version: &Version) {
    let case = Case {
        plan: trial::hex("02 00000002 00 01"),
        ..with_plan(version, &[])
    };
    for operation in [ReadPlan, Run, Judge, WriteList, FollowList, RelevantFacts] {
        expect(operation, &case, &[0, 32, 0]);
    }
}

fn a_buffer_one_byte_short_and_one_that_is_enough(version: &Version) {
    let case = |room| Case {
        room,
        ..with_plan(version, &[0, 1])
    };
    let enough = match version.byte {
        1 => 29,
        _ => 35,
    };
    expect(WriteList, &case(enough - 1), &[0, 53, 3]);
    expect(WriteList, &case(0), &[0, 53, 3]);
    expect(WriteList, &case(enough), &[1, enough as u64]);
    expect_list(&case(enough), &trial::list(version), 3);
    expect_list(&case(enough + 1), &trial::list(version), 3);
}

fn any_state_can_be_run(version: &Version) {
    let run = |state| Case {
        state,
        ..with_plan(version, &[0, 1])
    };
    let States { s010, s011 } = states(version);
    expect(Run, &run(s011), &[1]);
    expect(Run, &run(s010), &[1]);
    expect(Run, &run(0), &[2]);
    // Past the three facts, and the number of a state in the other version.
    let fact_3 = version.bit(3);
    let other = states(&version.other()).s011;
    for state in [s011 | fact_3, fact_3, 1, 1 << 48, other, u64::MAX] {
        expect(Run, &run(state), &[0, 40, 0]);
    }
    // The top bit of a word is fact 0 in version 2 alone.
    let named: &[u64] = match version.byte {
        1 => &[0, 40, 0],
        _ => &[1],
    };
    expect(Run, &run(1 << 63), named);
}

/// An action that sets and clears a fact at once blocks: neither condition wins.
fn to_set_and_clear_a_fact_blocks_at_step_0_fact_2(version: &Version) {
    let States { s010, s011 } = states(version);
    let mut problem = p_tree(version);
    problem.actions[0].effects = vec![
        Effect::sets(2, Formula::always()),
        Effect::clears(2, Formula::always()),
    ];
    for (steps, step) in [(&[0][..], 0), (&[0, 1], 0), (&[1, 1, 0], 2)] {
        let case = with_problem(&problem, steps);
        for state in [0, s010, s011] {
            let case = Case {
                state,
                ..case.clone()
            };
            expect(Run, &case, &[3, step, 1, 2]);
        }
        expect(Judge, &case, &[2, 5, s010, 3, step, 1, 2]);
        expect(WriteList, &case, &[0, 51, 5]);
    }
}

/// Of the plans up to two steps, 0, 1 is the fifth and the first right one.
fn both_actions_are_found_by_a_search(version: &Version) {
    let search = |longest, shared_grant, named: &[u64]| {
        let case = Case {
            longest,
            shared_grant,
            ..with_plan(version, &[])
        };
        expect(SearchPlans, &case, named);
    };
    search(2, u64::MAX, &[1, 27, 2, 0, 1]);
    search(4, 27, &[1, 27, 2, 0, 1]);
    search(2, 26, &[3, 26, 2, 0, 1]);
    search(2, 21, &[3, 21, 2, 0, 0]);
    search(2, 17, &[3, 17, 2, 0, 0]);
    search(1, 17, &[2, 17]);
    search(1, 16, &[3, 16, 1, 1]);
    search(0, 5, &[2, 5]);
    search(0, 4, &[3, 4]);
    search(0, 0, &[3, 0]);
    search(5, u64::MAX, &[0, 43, 0]);
}

/// A problem of two facts with one action.
fn small(version: &Version, action: Action, initial: Formula, goal: Formula) -> Problem {
    Problem {
        version: *version,
        facts: 2,
        initial,
        goal,
        actions: vec![action],
    }
}

fn all_conditions_are_read_before_any_effect(version: &Version) {
    let action = Action {
        precondition: Formula::always(),
        effects: vec![
            Effect::sets(0, Formula::always()),
            Effect::sets(1, Formula::fact(0)),
            Effect::clears(0, Formula::fact(1)),
        ],
    };
    let start = Formula::all([Formula::not(0), Formula::not(1)]);
    let goal = Formula::fact(1);
    let problem = small(version, action, start, goal);
    let ask = |operation: Operation, steps: &[u8], named: &[u64]| {
        expect(operation, &with_problem(&problem, steps), named);
    };
    ask(Run, &[0], &[2]);
    ask(Run, &[0, 0], &[1]);
    ask(Judge, &[0], &[2, 3, 0, 2]);
    // Fact 0 is always set, and not known to be left uncleared before fact 1 is
    // fixed.
    ask(Judge, &[0, 0], &[1, 5, 3]);
}

fn unknown_is_neither_no_nor_the_first_completion(version: &Version) {
    let idle = Action {
        precondition: Formula::always(),
        effects: Vec::new(),
    };
    // Right for fact 0 false, wrong for fact 0 true.
    let mut problem = small(version, idle, Formula::always(), Formula::not(0));
    expect(
        Judge,
        &with_problem(&problem, &[]),
        &[2, 4, version.bit(0), 2],
    );
    // True of every state, but only seen to be once fact 1 is fixed.
    problem.goal = Formula::either(1);
    expect(Judge, &with_problem(&problem, &[]), &[1, 7, 4]);
}

/// P with one start state of its three, with none, and with all of them in words that
/// say nothing of the case 00?.
fn a_narrower_start_keeps_plans_right_and_not_lists(version: &Version) {
    let either_or = |last| Formula::any([Formula::fact(0), Formula::fact(1), last]);
    let [one, none, reworded] = [
        Formula::all([Formula::not(0), Formula::fact(1), Formula::not(2)]),
        Formula::never(),
        Formula::all([
            either_or(Formula::fact(2)),
            either_or(Formula::not(2)),
            Formula::not(2),
        ]),
    ]
    .map(|initial| Problem {
        initial,
        ..p_tree(version)
    });
    let judges = |problem: &Problem, steps: &[u8], grant, named: &[u64]| {
        let case = Case {
            grant,
            ..with_problem(problem, steps)
        };
        expect(Judge, &case, named);
    };
    judges(&one, &[0, 1], 5, &[1, 5, 3]);
    judges(&none, &[0, 1], 5, &[1, 1, 1]);
    judges(&reworded, &[0, 1], 5, &[3, 5]);
    judges(&reworded, &[0, 1], 6, &[3, 6]);
    judges(&reworded, &[0, 1], 7, &[1, 7, 4]);
    // Plan 1 is wrong from 100, and right from 010 alone.
    judges(&p_tree(version), &[1], 7, &[2, 7, version.bit(0), 2]);
    judges(&one, &[1], 5, &[1, 5, 3]);
    for (problem, line) in [(&one, 2), (&none, 1), (&reworded, 0)] {
        let case = Case {
            list: trial::list(version),
            ..with_problem(problem, &[0, 1])
        };
        expect(FollowList, &case, &[0, 69, line]);
    }
}
