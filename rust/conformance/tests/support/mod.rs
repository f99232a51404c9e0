//! What the tests hold to the oracle.

use conformance::answer::Answer;
use conformance::harness::{Arena, Subject};
use larkhammock::raw;

/// The real library, through the crate over it.
pub struct Library;

impl Subject for Library {
    fn read_problem(&self, problem: &[u8]) -> Answer {
        raw::read_problem(problem).word
    }

    fn read_plan(&self, problem: &[u8], plan: &[u8]) -> Answer {
        raw::read_plan(problem, plan).word
    }

    fn run(&self, problem: &[u8], plan: &[u8], state: u64) -> Answer {
        raw::run(problem, plan, state).word
    }

    fn judge(&self, problem: &[u8], plan: &[u8], grant: u64) -> Answer {
        raw::judge(problem, plan, grant).word
    }

    fn write_list(&self, problem: &[u8], plan: &[u8], grant: u64, arena: &mut Arena) -> Answer {
        raw::write_list(problem, plan, grant, arena.out()).word
    }

    fn follow_list(&self, problem: &[u8], plan: &[u8], list: &[u8]) -> Answer {
        raw::follow_list(problem, plan, list).word
    }

    fn relevant_facts(&self, problem: &[u8], plan: &[u8], state: u64, arena: &mut Arena) -> Answer {
        raw::relevant_facts(problem, plan, state, arena.out()).word
    }

    fn relevant_facts_sparse(
        &self,
        problem: &[u8],
        plan: &[u8],
        state: u64,
        arena: &mut Arena,
    ) -> Answer {
        raw::relevant_facts_sparse(problem, plan, state, arena.out()).word
    }

    fn search_plans(&self, problem: &[u8], longest: u64, grant: u64) -> Answer {
        raw::search_plans(problem, longest, grant).word
    }

    fn merge(&self, first: &[u8], second: &[u8], out: &mut Arena, table: &mut Arena) -> Answer {
        raw::merge(first, second, out.out(), table.out()).word
    }
}
