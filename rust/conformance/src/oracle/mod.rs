//! The brute-force checker, written from the specification alone.
//!
//! It has no limit on its time or memory other than its callers' good sense:
//! the walk is as long as the grant lets it be.

mod cases;
mod follow;
mod merge;
mod parse;
mod relevance;
mod search;
mod states;

use crate::encode;
use crate::model::{Action, Line, Problem};
use crate::version::STRETCH;

pub use cases::{closes, walk, End, Walk};
pub use merge::{merge, merge_blocks, Merged};
pub use relevance::{conditions, named, Facts};
pub use search::{plans, Search};
pub use states::{after, conflicts, holds, lowest_failing, outcome, states};

/// Up to this many facts the judge's verdict comes from every state in turn.
pub const ENUMERABLE: u8 = 10;

#[derive(Clone, Copy, Debug, PartialEq, Eq)]
pub struct Refusal {
    pub number: u64,
    pub place: u64,
}

impl Refusal {
    fn at<T>(number: u64, place: usize) -> Result<T, Refusal> {
        let place = place as u64;
        Err(Refusal { number, place })
    }
}

#[derive(Clone, Copy, Debug, PartialEq, Eq)]
pub enum Outcome {
    Reached,
    Missed,
    Blocked { step: u64, part: Part },
}

/// What makes an action not applicable.
#[derive(Clone, Copy, Debug, PartialEq, Eq)]
pub enum Part {
    /// The precondition is not true: the first false member of an "all"; 0 of
    /// any other formula.
    Member(u64),
    /// The precondition is true: the lowest fact that is told to be set and to
    /// be cleared.
    Fact(u64),
}

#[derive(Clone, Copy, Debug, PartialEq, Eq)]
pub enum Verdict {
    Right {
        lines: u64,
        visits: u64,
    },
    Wrong {
        state: u64,
        outcome: Outcome,
        visits: u64,
    },
    Undecided {
        visits: u64,
    },
}

/// A run that reaches the goal.
#[derive(Clone, Debug, PartialEq, Eq)]
pub struct ReachedRun {
    /// The start facts that it rests on.
    pub facts: Facts,
    /// The state in which exactly these are true.
    pub set: u64,
    /// One more than there are steps.
    pub states: Vec<Vec<bool>>,
}

/// A run that reaches the goal, of which few states are kept.
#[derive(Clone, Debug, PartialEq, Eq)]
pub struct SparseRun {
    /// The start facts that it rests on.
    pub facts: Facts,
    /// The state in which exactly these are true.
    pub set: u64,
    /// The states numbered 0, 16, 32 and so on.
    pub kept: Vec<Vec<bool>>,
    /// The first 16 states, or all where there are fewer.
    pub first: Vec<Vec<bool>>,
}

/// A problem and a plan for it, both sound.
#[derive(Clone, Debug)]
pub struct Task {
    pub problem: Problem,
    pub plan: Vec<u8>,
}

impl Task {
    pub fn parse(problem: &[u8], plan: &[u8]) -> Result<Task, Refusal> {
        let problem = parse::problem(problem)?;
        let plan = parse::plan(plan, &problem)?;
        Ok(Task { problem, plan })
    }

    /// The bytes of a run's states, of one byte a fact each.
    pub fn work_bytes(&self) -> usize {
        (self.plan.len() + 1) * usize::from(self.problem.facts)
    }

    /// The bytes of the kept states and of the states of one stretch between them.
    pub fn sparse_work_bytes(&self) -> usize {
        let kept = self.plan.len() / STRETCH + 1;
        (kept + STRETCH) * usize::from(self.problem.facts)
    }

    fn steps(&self) -> impl DoubleEndedIterator<Item = &Action> + ExactSizeIterator {
        self.plan
            .iter()
            .map(|step| &self.problem.actions[usize::from(*step)])
    }
}

pub fn read_problem(problem: &[u8]) -> Result<Problem, Refusal> {
    parse::problem(problem)
}

pub fn read_plan(problem: &[u8], plan: &[u8]) -> Result<u64, Refusal> {
    let task = Task::parse(problem, plan)?;
    Ok(task.plan.len() as u64)
}

pub fn run(problem: &[u8], plan: &[u8], state: u64) -> Result<Outcome, Refusal> {
    let task = Task::parse(problem, plan)?;
    let start = start(&task.problem, state)?;
    Ok(outcome(&task, &start))
}

/// The values of a state's facts, if it is one of the problem's.
fn start(problem: &Problem, state: u64) -> Result<Vec<bool>, Refusal> {
    let values = problem.version.values(state, problem.facts);
    if problem.version.number(&values) != state {
        return Refusal::at(40, 0);
    }
    Ok(values)
}

pub fn judge(problem: &[u8], plan: &[u8], grant: u64) -> Result<Verdict, Refusal> {
    let task = Task::parse(problem, plan)?;
    Ok(verdict(&task, &walk(&task, grant)))
}

/// The bytes that go to the front of a buffer with this much room.
pub fn write_list(
    problem: &[u8],
    plan: &[u8],
    grant: u64,
    room: usize,
) -> Result<Vec<u8>, Refusal> {
    let task = Task::parse(problem, plan)?;
    let walk = walk(&task, grant);
    match verdict(&task, &walk) {
        Verdict::Undecided { visits } => Refusal::at(50, visits as usize),
        Verdict::Wrong { visits, .. } => Refusal::at(51, visits as usize),
        Verdict::Right { .. } => {
            let version = &task.problem.version;
            let lines = walk.lines.len();
            if lines > version.most_lines {
                return Refusal::at(52, lines);
            }
            let block = encode::list(version, &walk.lines);
            if room < block.len() {
                return Refusal::at(53, lines);
            }
            Ok(block)
        }
    }
}

pub fn follow_list(problem: &[u8], plan: &[u8], list: &[u8]) -> Result<u64, Refusal> {
    let task = Task::parse(problem, plan)?;
    let lines: Vec<Line> = parse::list(list, &task.problem.version)?;
    follow::follow(&task, &lines)?;
    Ok(lines.len() as u64)
}

/// Told with a work area of this many bytes.
pub fn relevant_facts(
    problem: &[u8],
    plan: &[u8],
    state: u64,
    work: usize,
) -> Result<ReachedRun, Refusal> {
    reached(problem, plan, state, |task| work < task.work_bytes())
}

/// The same, told with a work area of this many bytes, where few states are kept.
pub fn relevant_facts_sparse(
    problem: &[u8],
    plan: &[u8],
    state: u64,
    work: usize,
) -> Result<SparseRun, Refusal> {
    let run = reached(problem, plan, state, |task| work < task.sparse_work_bytes())?;
    Ok(SparseRun {
        facts: run.facts,
        set: run.set,
        kept: run.states.iter().step_by(STRETCH).cloned().collect(),
        first: run.states.iter().take(STRETCH).cloned().collect(),
    })
}

/// A run that reaches the goal, unless the work area is too short for it.
fn reached(
    problem: &[u8],
    plan: &[u8],
    state: u64,
    is_short: impl Fn(&Task) -> bool,
) -> Result<ReachedRun, Refusal> {
    let task = Task::parse(problem, plan)?;
    let start = start(&task.problem, state)?;
    if outcome(&task, &start) != Outcome::Reached {
        return Refusal::at(41, 0);
    }
    if is_short(&task) {
        return Refusal::at(42, 0);
    }
    let states = states(&task, &start);
    let facts = relevance::relevant(&task, &states);
    let set = facts.iter().map(|f| task.problem.version.bit(*f)).sum();
    Ok(ReachedRun { facts, set, states })
}

pub fn search_plans(problem: &[u8], longest: u64, grant: u64) -> Result<Search, Refusal> {
    let problem = parse::problem(problem)?;
    search::refused(problem.actions.len(), longest)?;
    Ok(search::search(problem, longest, grant))
}

/// The verdict of a walk. Where the states can be enumerated, they decide, and
/// the walk must agree; it alone knows the visits.
fn verdict(task: &Task, walk: &Walk) -> Verdict {
    let visits = walk.visits;
    let state = match walk.end {
        End::Spent => return Verdict::Undecided { visits },
        End::Covered => None,
        End::Failing(state) => Some(state),
    };
    let Problem { version, facts, .. } = task.problem;
    let failing = if facts <= ENUMERABLE {
        lowest_failing(task)
    } else {
        state.map(|state| (state, outcome(task, &version.values(state, facts))))
    };
    assert_eq!(
        failing.map(|f| f.0),
        state,
        "the walk and the states disagree"
    );
    match failing {
        None => Verdict::Right {
            lines: walk.lines.len() as u64,
            visits,
        },
        Some((state, outcome)) => Verdict::Wrong {
            state,
            outcome,
            visits,
        },
    }
}
