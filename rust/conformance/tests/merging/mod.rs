//! Two problems, the halls, as one.

mod formulas;
mod limits;
mod pairs;
mod plans;
mod refusals;
mod thirds;

use crate::support::Library;
use conformance::answer::Answer;
use conformance::encode;
use conformance::gen::merge_case;
use conformance::harness::Operation::Merge;
use conformance::harness::{self, check, observed, Case};
use conformance::model::Problem;
use conformance::oracle;

/// The first word of an answer that is no refusal.
const MERGED: u64 = 1;

/// More than any merge needs, of both buffers.
const PLENTY: [usize; 2] = [32_800, 70];

#[track_caller]
fn expect(case: &Case, named: &[u64]) {
    harness::expect(&Library, Merge, case, named);
}

/// Refused with this number in buffers that are long enough.
#[track_caller]
fn refuses(first: &Problem, second: &Problem, number: u64) {
    expect(&merge_case(first, second, PLENTY), &[0, number, 0]);
}

/// What the library makes of two halls.
struct Merged {
    block: Vec<u8>,
    problem: Problem,
    /// The new number of each action, the first hall's first.
    numbers: Vec<u8>,
}

impl Merged {
    /// By the library, and held to the oracle.
    #[track_caller]
    fn of(first: &Problem, second: &Problem) -> Result<Merged, Answer> {
        let case = merge_case(first, second, PLENTY);
        match check(&Library, Merge, &case).expect("as the oracle does") {
            [MERGED, block, count, 0, 0, 0, 0, 0] => {
                let effect = observed(&Library, Merge, &case);
                let block = effect.arena.lent()[..block as usize].to_vec();
                let numbers = effect.table.lent()[..count as usize].to_vec();
                Ok(Merged::read(block, numbers))
            }
            refused => Err(refused),
        }
    }

    #[track_caller]
    fn read(block: Vec<u8>, numbers: Vec<u8>) -> Merged {
        let problem = oracle::read_problem(&block).expect("a merged problem is sound");
        assert_eq!(encode::problem(&problem), block);
        assert_eq!(problem.actions.len(), numbers.len());
        assert!(numbers.iter().copied().eq(0..numbers.len() as u8));
        Merged {
            block,
            problem,
            numbers,
        }
    }
}

/// The merge of two halls that are within the limits.
#[track_caller]
fn merged(first: &Problem, second: &Problem) -> Merged {
    Merged::of(first, second).expect("it is within the limits")
}
