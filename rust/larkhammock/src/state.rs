//! States and sets of facts, by fact.

use std::fmt;

use crate::Version;

/// A state: whether each of a problem's facts is true.
///
/// It is made for the problem's version and number of facts, and a fact is read and
/// set by its number. Nobody has to know that a state of the C interface is a number
/// whose top bit is fact 0, and how many bits that has.
///
/// ```
/// use larkhammock::{example, read_problem, run, Outcome, State, Version};
///
/// let mut state = read_problem(example::PROBLEM)?.state();
/// assert_eq!(state, State::new(Version::V1, 3));
/// assert_eq!(run(example::PROBLEM, example::PLAN, state), Ok(Outcome::Missed));
///
/// state.set(1, true);
/// assert!(state.get(1) && !state.get(2));
/// assert_eq!(state.to_string(), "010");
/// assert_eq!(run(example::PROBLEM, example::PLAN, state), Ok(Outcome::Reached));
/// # Ok::<(), larkhammock::Refusal>(())
/// ```
#[derive(Clone, Copy, PartialEq, Eq, Hash)]
pub struct State {
    version: Version,
    facts: u8,
    /// No bit is set past the facts.
    number: u64,
}

impl State {
    /// The state in which none of so many facts is true.
    ///
    /// # Panics
    ///
    /// If a problem of this version can't have so many facts.
    pub const fn new(version: Version, facts: u64) -> State {
        assert!(
            1 <= facts && facts <= version.most_facts(),
            "no problem of this version has so many facts"
        );
        State {
            version,
            facts: facts as u8,
            number: 0,
        }
    }

    /// The state of these values, fact 0 first.
    ///
    /// ```
    /// use larkhammock::{State, Version};
    ///
    /// let state = State::of_values(Version::V2, &[false, true, false]);
    /// assert_eq!(state.to_string(), "010");
    /// ```
    ///
    /// # Panics
    ///
    /// If a problem of this version can't have so many facts.
    pub fn of_values(version: Version, values: &[bool]) -> State {
        let mut state = State::new(version, values.len() as u64);
        for (fact, value) in (0..).zip(values) {
            state.set(fact, *value);
        }
        state
    }

    /// The state of a number of the C interface; none where a bit is set past the
    /// facts.
    ///
    /// ```
    /// use larkhammock::{State, Version};
    ///
    /// let state = State::of_number(Version::V1, 3, 0x4000_0000_0000);
    /// assert!(state.is_some_and(|state| state.values().eq([false, true, false])));
    /// assert_eq!(State::of_number(Version::V1, 3, 1), None);
    ///
    /// // In version 2 with 64 facts each number is a state.
    /// let state = State::of_number(Version::V2, 64, u64::MAX);
    /// assert!(state.is_some_and(|state| state.get(63)));
    /// ```
    ///
    /// # Panics
    ///
    /// If a problem of this version can't have so many facts.
    pub const fn of_number(version: Version, facts: u64, number: u64) -> Option<State> {
        let state = State::new(version, facts);
        match number & !version.bits(facts) {
            0 => Some(State { number, ..state }),
            _ => None,
        }
    }

    /// The state's number in the C interface: of [`Version::state_bits`] bits, of
    /// which the top one is fact 0.
    ///
    /// ```
    /// use larkhammock::{State, Version};
    ///
    /// let numbers = [Version::V1, Version::V2]
    ///     .map(|version| State::of_values(version, &[false, true]).number());
    /// assert_eq!(numbers, [0x4000_0000_0000, 0x4000_0000_0000_0000]);
    /// ```
    pub const fn number(self) -> u64 {
        self.number
    }

    /// The version of the problems that have this state.
    pub const fn version(self) -> Version {
        self.version
    }

    /// How many facts it has.
    pub const fn facts(self) -> u64 {
        self.facts as u64
    }

    /// Whether a fact is true.
    ///
    /// # Panics
    ///
    /// If there is no such fact.
    pub const fn get(self, fact: u64) -> bool {
        self.number & self.bit(fact) != 0
    }

    /// Makes a fact true or false.
    ///
    /// # Panics
    ///
    /// If there is no such fact.
    pub fn set(&mut self, fact: u64, value: bool) {
        let bit = self.bit(fact);
        if value {
            self.number |= bit;
        } else {
            self.number &= !bit;
        }
    }

    /// The values of all facts, fact 0 first.
    pub fn values(self) -> impl ExactSizeIterator<Item = bool> + DoubleEndedIterator {
        (0..self.facts).map(move |fact| self.get(fact.into()))
    }

    const fn bit(self, fact: u64) -> u64 {
        assert!(fact < self.facts(), "there is no such fact");
        self.version.bit(fact)
    }

    /// Whether it is one of this problem's, so far as the block's version and fact
    /// count say.
    pub(crate) fn is_of(self, problem: &[u8]) -> bool {
        let count = problem.get(5);
        Version::of_block(problem) == Some(self.version) && count == Some(&self.facts)
    }
}

/// A mark for each fact, 1 where it is true and 0 where it is not, as the desk
/// program prints a state.
impl fmt::Display for State {
    fn fmt(&self, f: &mut fmt::Formatter<'_>) -> fmt::Result {
        let marks: String = self.values().map(|v| if v { '1' } else { '0' }).collect();
        f.pad(&marks)
    }
}

impl fmt::Debug for State {
    fn fmt(&self, f: &mut fmt::Formatter<'_>) -> fmt::Result {
        write!(f, "State({self} of version {})", self.version)
    }
}

/// A set of a problem's facts.
///
/// ```
/// use larkhammock::{example, relevant_facts, State, Version};
///
/// let mut work = [0; Version::V1.longest_work()];
/// let start = State::of_values(Version::V1, &[true, false, false]);
/// let facts = relevant_facts(example::PROBLEM, example::PLAN, start, &mut work)?.facts;
/// assert!(facts.contains(1) && !facts.contains(2));
/// assert!(facts.iter().eq([0, 1]));
///
/// let other = State::of_values(Version::V1, &[true, false, true]);
/// assert!(facts.agree(start, other));
/// # Ok::<(), larkhammock::Refusal>(())
/// ```
#[derive(Clone, Copy, Debug, PartialEq, Eq, Hash)]
pub struct FactSet {
    /// That in which exactly these facts are true.
    members: State,
}

impl FactSet {
    /// The facts that are true in a state.
    pub(crate) const fn of_state(members: State) -> FactSet {
        FactSet { members }
    }

    /// The state in which exactly these facts are true: the set as the C interface
    /// tells it.
    pub const fn state(self) -> State {
        self.members
    }

    /// Whether the set has this fact.
    pub const fn contains(self, fact: u64) -> bool {
        fact < self.members.facts() && self.members.get(fact)
    }

    /// Its facts, the lowest first.
    pub fn iter(self) -> impl Iterator<Item = u64> {
        (0..self.members.facts()).filter(move |fact| self.contains(*fact))
    }

    /// Whether two states of the problem have the same values of all its facts.
    ///
    /// # Panics
    ///
    /// If one of the states has too few facts.
    pub fn agree(self, one: State, other: State) -> bool {
        self.iter().all(|fact| one.get(fact) == other.get(fact))
    }
}

#[cfg(test)]
mod tests {
    use super::*;

    const MOST: [(Version, u64, u64); 2] = [
        (Version::V1, 48, (1 << 48) - 1),
        (Version::V2, 64, u64::MAX),
    ];

    #[test]
    fn each_fact_has_a_bit_of_its_own() {
        for (version, facts, all) in MOST {
            let nothing = State::new(version, facts);
            let everything = State::of_values(version, &vec![true; facts as usize]);
            assert_eq!((nothing.number(), everything.number()), (0, all));
            for fact in 0..facts {
                let mut one = nothing;
                one.set(fact, true);
                assert_eq!(one.number(), 1 << (facts - 1 - fact));
                assert!((0..facts).all(|other| one.get(other) == (other == fact)));
                let mut others = everything;
                others.set(fact, false);
                assert_eq!(others.number(), all - one.number());
                others.set(fact, true);
                assert_eq!(others, everything);
            }
        }
    }

    #[test]
    fn a_number_past_the_facts_is_no_state() {
        for (version, most, all) in MOST {
            for facts in 1..=most {
                let lowest = 1 << (most - facts);
                let of = |number| State::of_number(version, facts, number);
                assert_eq!(of(lowest).map(State::number), Some(lowest));
                let highest = all - (lowest - 1);
                assert_eq!(of(highest).map(State::number), Some(highest));
                assert_eq!(of(lowest / 2).is_none(), facts < most);
                assert_eq!(of(all).is_none(), facts < most);
            }
        }
        assert_eq!(State::of_number(Version::V1, 48, 1 << 48), None);
        assert_eq!(State::of_number(Version::V1, 48, u64::MAX), None);
    }

    #[test]
    fn a_state_is_of_its_version_and_facts() {
        let state = State::new(Version::V2, 3);
        assert!(state.is_of(&[2, 0, 0, 0, 0, 3]));
        for problem in [
            &[1, 0, 0, 0, 0, 3][..],
            &[2, 0, 0, 0, 0, 4],
            &[2, 0, 0],
            &[],
        ] {
            assert!(!state.is_of(problem));
        }
    }

    #[test]
    #[should_panic(expected = "there is no such fact")]
    fn a_fact_that_is_not_there_is_not_read() {
        State::new(Version::V2, 3).get(3);
    }

    #[test]
    #[should_panic(expected = "so many facts")]
    fn version_1_has_no_49_facts() {
        State::new(Version::V1, 49);
    }
}
