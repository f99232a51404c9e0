//! The part of an action that a block names, worked out by hand.

use crate::cases::blocked::{self, Blocked};
use crate::safe;
use crate::support::Library;
use conformance::encode;
use conformance::harness::Operation::{Judge, Run};
use conformance::harness::{expect, Case};
use conformance::oracle::Part;
use conformance::version::Version;
use larkhammock::{Outcome, Verdict};

fn case_of(row: &Blocked) -> Case {
    // It is shown where the test fails.
    println!("{}", row.name);
    Case {
        problem: encode::problem(&row.problem),
        plan: encode::plan(&row.steps),
        state: row.state,
        grant: u64::MAX,
        ..Case::default()
    }
}

/// The part's words in C.
fn words(part: Part) -> [u64; 2] {
    match part {
        Part::Member(member) => [0, member],
        Part::Fact(fact) => [1, fact],
    }
}

fn safe_part(part: Part) -> larkhammock::Part {
    match part {
        Part::Member(member) => larkhammock::Part::Member(member),
        Part::Fact(fact) => larkhammock::Part::Fact(fact),
    }
}

of_each_version! {
    the_run_names_the_part,
    the_judge_names_the_part,
    the_safe_crate_names_the_part,
}

fn the_run_names_the_part(version: &Version) {
    for row in blocked::all(version) {
        let [part, number] = words(row.part);
        let named = [3, row.step, part, number];
        expect(&Library, Run, &case_of(&row), &named);
    }
}

fn the_judge_names_the_part(version: &Version) {
    for row in blocked::all(version) {
        let [part, number] = words(row.part);
        let named = [2, row.visits, row.state, 3, row.step, part, number];
        expect(&Library, Judge, &case_of(&row), &named);
    }
}

fn the_safe_crate_names_the_part(version: &Version) {
    for row in blocked::all(version) {
        let Case { problem, plan, .. } = case_of(&row);
        let visits = row.visits;
        let outcome = Outcome::Blocked {
            step: row.step,
            part: safe_part(row.part),
        };
        let state = safe::state(&row.problem, row.state);
        assert_eq!(larkhammock::run(&problem, &plan, state), Ok(outcome));
        let wrong = Verdict::Wrong {
            state,
            outcome,
            visits,
        };
        assert_eq!(larkhammock::judge(&problem, &plan, visits), Ok(wrong));
    }
}
