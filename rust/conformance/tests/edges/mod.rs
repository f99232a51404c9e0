//! Every limit, at its edge and one past it: a module for each operation.

mod follow_list;
mod judge;
mod problems;
mod read_plan;
mod read_problem;
mod relevant_facts;
mod relevant_facts_sparse;
mod run;
mod search_plans;
mod write_list;

use crate::support::Library;
use conformance::encode;
use conformance::harness::Operation::*;
use conformance::harness::{self, Case, Operation};
use conformance::model::Problem;
use conformance::trial;
use conformance::version::{Version, HEADER, VERSIONS};

#[track_caller]
fn expect(operation: Operation, case: &Case, named: &[u64]) {
    harness::expect(&Library, operation, case, named);
}

/// The problem and the plan, all the grant there is and room for any list and run.
fn case_of(problem: &Problem, steps: &[u8]) -> Case {
    Case {
        problem: encode::problem(problem),
        plan: encode::plan(steps),
        grant: u64::MAX,
        room: problem.version.most_bytes(),
        work: problem.version.most_work_bytes(),
        sparse_work: problem.version.most_sparse_work_bytes(),
        shared_grant: u64::MAX,
        ..Case::default()
    }
}

/// The block made to end at each length from its header on, in buffers whose
/// bytes go on as if they belonged to it.
fn ended_early(block: &[u8]) -> impl Iterator<Item = (usize, Vec<u8>)> + '_ {
    (HEADER..block.len()).map(|length| {
        let mut bytes = block.to_vec();
        encode::mend(&mut bytes[..length]);
        (length, bytes)
    })
}

of_each_version! {
    the_problem_is_refused_before_the_plan_and_the_list,
    the_limits_are_those_of_the_safe_crate,
}

/// Every number that the versions differ in, and what follows from it.
#[test]
fn the_limits_of_both_versions() {
    let limits = VERSIONS.map(|version| {
        let facts = [version.most_facts, version.most_effects].map(usize::from);
        let list = [version.line_bytes, version.most_lines, version.most_bytes()];
        (version.byte, facts, version.width, list)
    });
    let [first, second] = limits;
    assert_eq!(first, (1, [48, 96], 48, [8, 8_191, 65_533]));
    assert_eq!(second, (2, [64, 128], 64, [10, 6_553, 65_535]));
    assert_eq!(VERSIONS.map(|v| v.most_work_bytes()), [12_336, 16_448]);
    assert_eq!(VERSIONS.map(|v| v.most_sparse_work_bytes()), [1_584, 2_112]);
}

fn the_limits_are_those_of_the_safe_crate(version: &Version) {
    let named = larkhammock::Version::of_byte(version.byte).expect("it is known");
    assert_eq!(named.byte(), version.byte);
    assert_eq!(named.most_facts(), version.most_facts.into());
    assert_eq!(named.most_effects(), version.most_effects.into());
    assert_eq!(named.state_bits(), version.width);
    assert_eq!(named.line_bytes(), version.line_bytes);
    assert_eq!(named.most_lines(), version.most_lines);
    assert_eq!(named.longest_list(), version.most_bytes());
    assert_eq!(named.longest_work(), version.most_work_bytes());
    assert_eq!(
        named.longest_sparse_work(),
        version.most_sparse_work_bytes()
    );
}

/// Whatever follows the byte, and where nothing does.
#[test]
fn versions_0_3_and_255() {
    for byte in [0, 3, 255] {
        for version in &VERSIONS {
            let mut problem = trial::problem(version);
            problem[0] = byte;
            let mut longer = problem.clone();
            longer.push(0);
            for problem in [problem, longer, vec![byte, 0, 0, 0, 0], vec![byte; 5]] {
                let case = Case {
                    problem,
                    ..trial::with_plan(version, &[0, 1])
                };
                for operation in Operation::ALL {
                    expect(operation, &case, &[0, 12, 0]);
                }
            }
        }
        // In four bytes it does not come to that.
        let case = Case {
            problem: vec![byte; 4],
            ..Case::default()
        };
        expect(ReadProblem, &case, &[0, 11, 4]);
    }
}

fn the_problem_is_refused_before_the_plan_and_the_list(version: &Version) {
    let case = Case {
        problem: vec![version.byte, 0, 0],
        plan: vec![2],
        list: vec![3],
        state: u64::MAX,
        longest: u64::MAX,
        ..Case::default()
    };
    for operation in Operation::ALL {
        expect(operation, &case, &[0, 11, 3]);
    }
    let problem = trial::problem(version);
    let case = Case { problem, ..case };
    for operation in Operation::ALL {
        let refused = match operation {
            ReadProblem => continue,
            // A search takes no plan, and a merge a second problem instead.
            SearchPlans => [0, 43, 0],
            Merge => [0, 11, 0],
            _ => [0, 31, 1],
        };
        expect(operation, &case, &refused);
    }
}
