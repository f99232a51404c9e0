//! Holds a library to the oracle: whole answers, and every byte of the lent buffers
//! with guards around them.

use std::fmt;
use std::ops::Range;

use crate::answer::{self, words, Answer};
use crate::oracle::{self, Task};

/// What is tested: the ten operations, as their eight words.
pub trait Subject {
    fn read_problem(&self, problem: &[u8]) -> Answer;
    fn read_plan(&self, problem: &[u8], plan: &[u8]) -> Answer;
    fn run(&self, problem: &[u8], plan: &[u8], state: u64) -> Answer;
    fn judge(&self, problem: &[u8], plan: &[u8], grant: u64) -> Answer;
    fn write_list(&self, problem: &[u8], plan: &[u8], grant: u64, arena: &mut Arena) -> Answer;
    fn follow_list(&self, problem: &[u8], plan: &[u8], list: &[u8]) -> Answer;
    fn relevant_facts(&self, problem: &[u8], plan: &[u8], state: u64, arena: &mut Arena) -> Answer;
    fn relevant_facts_sparse(
        &self,
        problem: &[u8],
        plan: &[u8],
        state: u64,
        arena: &mut Arena,
    ) -> Answer;
    fn search_plans(&self, problem: &[u8], longest: u64, grant: u64) -> Answer;
    fn merge(&self, first: &[u8], second: &[u8], out: &mut Arena, table: &mut Arena) -> Answer;
}

#[derive(Clone, Copy, Debug, PartialEq, Eq)]
pub enum Operation {
    ReadProblem,
    ReadPlan,
    Run,
    Judge,
    WriteList,
    FollowList,
    RelevantFacts,
    RelevantFactsSparse,
    SearchPlans,
    Merge,
}

impl Operation {
    pub const ALL: [Operation; 10] = [
        Operation::ReadProblem,
        Operation::ReadPlan,
        Operation::Run,
        Operation::Judge,
        Operation::WriteList,
        Operation::FollowList,
        Operation::RelevantFacts,
        Operation::RelevantFactsSparse,
        Operation::SearchPlans,
        Operation::Merge,
    ];
}

/// Arguments for all ten operations.
#[derive(Clone, Default)]
pub struct Case {
    pub problem: Vec<u8>,
    pub plan: Vec<u8>,
    pub list: Vec<u8>,
    pub state: u64,
    pub grant: u64,
    /// The bytes that are lent for a list.
    pub room: usize,
    /// The bytes that are lent for the states of a run.
    pub work: usize,
    /// The bytes that are lent for the few that are kept of them.
    pub sparse_work: usize,
    /// The longest length of a search.
    pub longest: u64,
    /// The grant of a search: many plans share it, where the other is for one.
    pub shared_grant: u64,
    /// The second problem of a merge, whose first one is the problem.
    pub second: Vec<u8>,
    /// The bytes that are lent for a merged block.
    pub block_room: usize,
    /// The bytes that are lent for the numbers of its actions.
    pub places: usize,
}

/// The lent buffer with guard bytes on both sides.
#[derive(Clone, PartialEq, Eq)]
pub struct Arena {
    pub bytes: Vec<u8>,
    pub room: Range<usize>,
}

impl Arena {
    pub const GUARD: usize = 64;

    pub fn new(room: usize) -> Arena {
        let room = Self::GUARD..Self::GUARD + room;
        // No list holds such bytes in a row, and no state one of them, so a stray
        // store shows.
        let bytes = (0..room.end + Self::GUARD)
            .map(|i| 0x90 | (i & 15) as u8)
            .collect();
        Arena { bytes, room }
    }

    /// The part that is lent.
    pub fn out(&mut self) -> &mut [u8] {
        &mut self.bytes[self.room.clone()]
    }

    /// The same, to be looked at.
    pub fn lent(&self) -> &[u8] {
        &self.bytes[self.room.clone()]
    }

    /// Where the first byte is that another has not, counted from the part that is lent.
    fn differs_from(&self, other: &Arena) -> Option<isize> {
        let mut pairs = self.bytes.iter().zip(&other.bytes);
        let at = pairs.position(|(one, other)| one != other)?;
        Some(at as isize - Arena::GUARD as isize)
    }
}

/// An answer and what it left in the buffers.
#[derive(Clone, PartialEq, Eq)]
pub struct Effect {
    pub answer: Answer,
    pub arena: Arena,
    /// The second buffer of a merge.
    pub table: Arena,
}

/// A call that went otherwise than the oracle says.
pub struct Difference {
    operation: Operation,
    case: Case,
    expected: Effect,
    got: Effect,
}

impl fmt::Debug for Difference {
    fn fmt(&self, f: &mut fmt::Formatter<'_>) -> fmt::Result {
        let Difference {
            operation, case, ..
        } = self;
        writeln!(f, "{operation:?}")?;
        writeln!(f, "  expected {:?}", self.expected.answer)?;
        writeln!(f, "  got      {:?}", self.got.answer)?;
        for (name, expected, got) in [
            ("buffer", &self.expected.arena, &self.got.arena),
            ("table", &self.expected.table, &self.got.table),
        ] {
            if let Some(at) = expected.differs_from(got) {
                writeln!(f, "  {name} differs first at {at}")?;
            }
        }
        writeln!(f, "  problem {}", hex(&case.problem))?;
        writeln!(f, "  plan {}", hex(&case.plan))?;
        writeln!(f, "  list {}", hex(&case.list))?;
        write!(f, "  state {:x} grant {}", case.state, case.grant)?;
        write!(f, " room {} work {}", case.room, case.work)?;
        writeln!(f, " sparse work {}", case.sparse_work)?;
        writeln!(
            f,
            "  longest {} shared grant {}",
            case.longest, case.shared_grant
        )?;
        writeln!(f, "  second {}", hex(&case.second))?;
        write!(f, "  block room {} places {}", case.block_room, case.places)
    }
}

fn hex(bytes: &[u8]) -> String {
    bytes.iter().map(|b| format!("{b:02x}")).collect()
}

/// The oracle in a library's place.
struct Oracle;

impl Subject for Oracle {
    fn read_problem(&self, problem: &[u8]) -> Answer {
        answer::read_problem(&oracle::read_problem(problem))
    }

    fn read_plan(&self, problem: &[u8], plan: &[u8]) -> Answer {
        answer::number(&oracle::read_plan(problem, plan))
    }

    fn run(&self, problem: &[u8], plan: &[u8], state: u64) -> Answer {
        answer::run(&oracle::run(problem, plan, state))
    }

    fn judge(&self, problem: &[u8], plan: &[u8], grant: u64) -> Answer {
        answer::judge(&oracle::judge(problem, plan, grant))
    }

    fn write_list(&self, problem: &[u8], plan: &[u8], grant: u64, arena: &mut Arena) -> Answer {
        let written = oracle::write_list(problem, plan, grant, arena.room.len());
        if let Ok(block) = &written {
            arena.out()[..block.len()].copy_from_slice(block);
        }
        answer::number(&written.map(|block| block.len() as u64))
    }

    fn follow_list(&self, problem: &[u8], plan: &[u8], list: &[u8]) -> Answer {
        answer::number(&oracle::follow_list(problem, plan, list))
    }

    fn relevant_facts(&self, problem: &[u8], plan: &[u8], state: u64, arena: &mut Arena) -> Answer {
        let told = oracle::relevant_facts(problem, plan, state, arena.room.len());
        if let Ok(run) = &told {
            put(arena, run.states.iter().flatten());
        }
        answer::number(&told.map(|run| run.set))
    }

    fn relevant_facts_sparse(
        &self,
        problem: &[u8],
        plan: &[u8],
        state: u64,
        arena: &mut Arena,
    ) -> Answer {
        let told = oracle::relevant_facts_sparse(problem, plan, state, arena.room.len());
        if let Ok(run) = &told {
            let task = Task::parse(problem, plan).expect("both are sound");
            arena.out()[..task.sparse_work_bytes()].fill(0);
            put(arena, run.kept.iter().chain(&run.first).flatten());
        }
        answer::number(&told.map(|run| run.set))
    }

    fn search_plans(&self, problem: &[u8], longest: u64, grant: u64) -> Answer {
        answer::search_plans(&oracle::search_plans(problem, longest, grant))
    }

    fn merge(&self, first: &[u8], second: &[u8], out: &mut Arena, table: &mut Arena) -> Answer {
        let lent = [out.room.len(), table.room.len()];
        let merged = oracle::merge_blocks([first, second], lent);
        if let Ok(merged) = &merged {
            out.out()[..merged.block.len()].copy_from_slice(&merged.block);
            table.out()[..merged.numbers.len()].copy_from_slice(&merged.numbers);
        }
        answer::merge(&merged)
    }
}

/// The values stand at the front of the lent part, a byte each.
fn put<'a>(arena: &mut Arena, values: impl Iterator<Item = &'a bool>) {
    for (byte, value) in arena.out().iter_mut().zip(values) {
        *byte = u8::from(*value);
    }
}

/// What the oracle says of one call.
pub fn expected(operation: Operation, case: &Case) -> Effect {
    observed(&Oracle, operation, case)
}

/// What the subject makes of one call.
pub fn observed(subject: &dyn Subject, operation: Operation, case: &Case) -> Effect {
    let Case {
        problem,
        plan,
        list,
        ..
    } = case;
    let mut arena = Arena::new(room(operation, case));
    let mut table = Arena::new(match operation {
        Operation::Merge => case.places,
        _ => 0,
    });
    let answer = match operation {
        Operation::ReadProblem => subject.read_problem(problem),
        Operation::ReadPlan => subject.read_plan(problem, plan),
        Operation::Run => subject.run(problem, plan, case.state),
        Operation::Judge => subject.judge(problem, plan, case.grant),
        Operation::WriteList => subject.write_list(problem, plan, case.grant, &mut arena),
        Operation::FollowList => subject.follow_list(problem, plan, list),
        Operation::RelevantFacts => subject.relevant_facts(problem, plan, case.state, &mut arena),
        Operation::RelevantFactsSparse => {
            subject.relevant_facts_sparse(problem, plan, case.state, &mut arena)
        }
        Operation::SearchPlans => subject.search_plans(problem, case.longest, case.shared_grant),
        Operation::Merge => subject.merge(problem, &case.second, &mut arena, &mut table),
    };
    Effect {
        answer,
        arena,
        table,
    }
}

/// Only four operations have a buffer, and a merge has a table beside it.
fn room(operation: Operation, case: &Case) -> usize {
    match operation {
        Operation::WriteList => case.room,
        Operation::RelevantFacts => case.work,
        Operation::RelevantFactsSparse => case.sparse_work,
        Operation::Merge => case.block_room,
        _ => 0,
    }
}

/// Compares one call; the answer, if it is as it should be.
pub fn check(
    subject: &dyn Subject,
    operation: Operation,
    case: &Case,
) -> Result<Answer, Box<Difference>> {
    let got = observed(subject, operation, case);
    compare(operation, case, expected(operation, case), got)
}

fn compare(
    operation: Operation,
    case: &Case,
    expected: Effect,
    got: Effect,
) -> Result<Answer, Box<Difference>> {
    if got == expected {
        return Ok(got.answer);
    }
    Err(Box::new(Difference {
        operation,
        case: case.clone(),
        expected,
        got,
    }))
}

/// Compares all ten calls; the answers in the order of [`Operation::ALL`].
pub fn check_all(subject: &dyn Subject, case: &Case) -> Result<Vec<Answer>, Box<Difference>> {
    Operation::ALL
        .iter()
        .map(|operation| check(subject, *operation, case))
        .collect()
}

/// Holds the oracle and the subject to an answer that was worked out by hand,
/// and the buffers to the oracle's.
#[track_caller]
pub fn expect(subject: &dyn Subject, operation: Operation, case: &Case, named: &[u64]) {
    let got = observed(subject, operation, case);
    let expected = expected(operation, case);
    assert_eq!(expected.answer, words(named), "the oracle's {operation:?}");
    if let Err(difference) = compare(operation, case, expected, got) {
        panic!("{difference:?}");
    }
}
