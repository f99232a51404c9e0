//! Reading a plan.

use conformance::answer::words;
use conformance::encode;
use conformance::harness::Case;
use conformance::harness::Operation::*;
use conformance::trial::{self, with_plan};
use conformance::version::Version;
use larkhammock::raw;

use super::problems::plain;
use super::{case_of, ended_early, expect};

of_each_version! {
    steps_name_one_of_0_or_64_actions,
    plans_of_256_and_257_steps,
    nothing_past_a_length_is_read,
}

fn steps_name_one_of_0_or_64_actions(version: &Version) {
    let reads = |actions: usize, steps: &[u8], named: &[u64]| {
        expect(
            ReadPlan,
            &case_of(&plain(version, 1, actions), steps),
            named,
        );
    };
    reads(64, &[63], &[1, 1]);
    reads(64, &[63, 64], &[0, 34, 6]);
    reads(0, &[0], &[0, 34, 5]);
}

fn plans_of_256_and_257_steps(version: &Version) {
    let plan = |plan: Vec<u8>, named: &[u64]| {
        let case = Case {
            plan,
            ..with_plan(version, &[])
        };
        expect(ReadPlan, &case, named);
        if named[0] == 0 {
            for operation in [Run, Judge, WriteList, FollowList, RelevantFacts] {
                expect(operation, &case, named);
            }
        }
    };
    plan(encode::plan(&[1; 256]), &[1, 256]);
    plan(encode::plan(&[1; 257]), &[0, 30, 261]);
    plan(vec![9; 262], &[0, 30, 261]);
    plan(vec![9; 261], &[0, 32, 0]);
    for length in 0..5 {
        plan(vec![9; length], &[0, 31, length as u64]);
    }
    plan(vec![1, 0, 0, 0, 0, 0], &[0, 33, 1]);
    plan(vec![1, 1, 0, 0, 0], &[0, 33, 1]);
    plan(vec![1, 0, 0, 0, 2, 1, 2], &[0, 34, 6]);
    // A plan is of version 1 whatever its problem is.
    plan(vec![2, 0, 0, 0, 0], &[0, 32, 0]);
}

fn nothing_past_a_length_is_read(version: &Version) {
    for (length, bytes) in ended_early(&encode::plan(&[0, 1])) {
        let answer = raw::read_plan(&trial::problem(version), &bytes[..length]).word;
        assert_eq!(answer, words(&[1, length as u64 - 5]));
    }
}
