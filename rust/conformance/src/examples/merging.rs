//! Two halls of an example as one problem.

use crate::encode;
use crate::model::Problem;
use crate::oracle::merge;
use crate::shell::Names;

/// The files `first` and `second`, merged, and a story of it.
pub struct Merging {
    pub first: Vec<u8>,
    pub second: Vec<u8>,
    /// What is in the file `problem`.
    pub problem: Vec<u8>,
    /// The new number of each action, the first hall's first.
    pub table: Vec<u8>,
    /// The first hall's actions.
    actions: usize,
    pub story: String,
}

impl Merging {
    /// Each action keeps its number, and the second hall's come after the first's.
    pub fn new(first: &Problem, second: &Problem) -> Merging {
        let merged = merge(first, second).expect("the halls are small");
        Merging {
            first: encode::problem(first),
            second: encode::problem(second),
            problem: encode::problem(&merged),
            table: (0..merged.actions.len() as u8).collect(),
            actions: first.actions.len(),
            story: String::new(),
        }
    }

    /// The steps of a plan for the first hall, in the merged problem.
    pub fn of_first(&self, steps: &[u8]) -> Vec<u8> {
        numbered(&self.table[..self.actions], steps)
    }

    /// The steps of a plan for the second hall, in the merged problem.
    pub fn of_second(&self, steps: &[u8]) -> Vec<u8> {
        numbered(&self.table[self.actions..], steps)
    }

    /// A step of a plan for the first hall and one of a plan for the second in turn, as long
    /// as there is one.
    pub fn by_turns(&self, first: &[u8], second: &[u8]) -> Vec<u8> {
        let (first, second) = (self.of_first(first), self.of_second(second));
        let turns = 0..first.len().max(second.len());
        let steps = turns.flat_map(|turn| first.get(turn).into_iter().chain(second.get(turn)));
        steps.copied().collect()
    }

    /// The names of both halls in the merged problem.
    pub fn names(&self, first: &Names, second: &Names) -> Names {
        Names {
            facts: [&first.facts[..], &second.facts[..]].concat(),
            actions: [&first.actions[..], &second.actions[..]].concat(),
        }
    }

    /// What the program `merge` of the crate `larkhammock` prints, without the end of its
    /// line.
    pub fn printed(&self) -> String {
        let (bytes, actions) = (self.problem.len(), self.table.len());
        format!("merged into {bytes} bytes with {actions} actions")
    }
}

fn numbered(table: &[u8], steps: &[u8]) -> Vec<u8> {
    steps.iter().map(|step| table[usize::from(*step)]).collect()
}
