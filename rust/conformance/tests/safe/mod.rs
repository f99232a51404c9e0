//! The checker's versions and states as those of the safe crate.

use conformance::model::Problem;
use conformance::version::Version;
use larkhammock::State;

pub fn version(version: &Version) -> larkhammock::Version {
    larkhammock::Version::of_byte(version.byte).expect("the crate knows it")
}

/// The state of this problem with a number, which must be one of its states.
pub fn state(problem: &Problem, number: u64) -> State {
    let state = State::of_number(version(&problem.version), problem.facts.into(), number);
    state.expect("no bit is set past the facts")
}
