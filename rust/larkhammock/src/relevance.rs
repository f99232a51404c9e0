//! What a reached run rests on.

use std::slice::ChunksExact;

use crate::FactSet;

/// An iterator over the states of a run, the start state first. A state has one
/// byte for each fact, 1 where it is true and 0 where it is not.
///
/// ```
/// use larkhammock::{example, relevant_facts, State, Version};
///
/// let mut work = [0; Version::V1.longest_work()];
/// let start = State::of_values(Version::V1, &[false, true, false]);
/// let run = relevant_facts(example::PROBLEM, example::PLAN, start, &mut work)?;
/// let states: Vec<&[u8]> = run.states.collect();
/// assert_eq!(states, [[0, 1, 0], [0, 1, 0], [0, 1, 1]]);
/// # Ok::<(), larkhammock::Refusal>(())
/// ```
#[derive(Clone, Debug)]
pub struct States<'a> {
    rows: ChunksExact<'a, u8>,
}

impl<'a> States<'a> {
    /// The states that stand in a work area, one after the other.
    pub(crate) fn new(work: &'a [u8], facts: usize) -> Self {
        States {
            rows: work.chunks_exact(facts),
        }
    }
}

impl<'a> Iterator for States<'a> {
    type Item = &'a [u8];

    fn next(&mut self) -> Option<&'a [u8]> {
        self.rows.next()
    }

    fn size_hint(&self) -> (usize, Option<usize>) {
        self.rows.size_hint()
    }
}

impl ExactSizeIterator for States<'_> {}

/// A reached run of which every 16th state is kept: what it rests on, and some of its
/// states.
#[derive(Clone, Debug)]
pub struct SparseRun<'a> {
    /// The start facts that it rests on.
    pub facts: FactSet,
    /// Its states numbered 0, 16, 32 and so on, the start state being number 0.
    pub kept: States<'a>,
    /// Its first 16 states, or all where it has fewer.
    pub first: States<'a>,
}

/// A reached run: what it rests on, and its states.
#[derive(Clone, Debug)]
pub struct ReachedRun<'a> {
    /// The start facts that it rests on.
    pub facts: FactSet,
    /// Its states, one more than the plan has steps.
    pub states: States<'a>,
}
