//! Tens of thousands of calls of every operation, from fixed seeds.

use std::collections::BTreeSet;
use std::num::NonZero;
use std::sync::atomic::{AtomicUsize, Ordering};
use std::thread;

use crate::safe;
use crate::support::Library;
use conformance::answer::Answer;
use conformance::gen::{arbitrary_case, case_of_round, damaged_case, sound_case, wide_case, Rng};
use conformance::harness::{check_all, Case, Operation};
use conformance::oracle::{self, conflicts, holds, states, Task};
use conformance::version::Version;

type Maker = fn(&mut Rng, &Version) -> Case;

const SWEEPS: [(u64, usize, Maker); 4] = [
    (0x1a51, 20_000, sound_case),
    (0x1a52, 40_000, damaged_case),
    (0x1a53, 20_000, arbitrary_case),
    (0x1a54, 12, wide_case),
];

/// Runs and judges are blocked at each of an "all"'s first so many members, and at
/// each of the first so many facts.
const NUMBERS: u64 = 4;

/// Every number that a call can be refused with.
fn every_refusal() -> BTreeSet<u64> {
    let ranges = [10..=25, 30..=34, 40..=44, 50..=53, 60..=71, 82..=86];
    ranges.into_iter().flatten().collect()
}

/// A block that an answer tells of.
struct Block {
    state: u64,
    step: u64,
    part: u64,
    number: u64,
}

fn block(operation: Operation, case: &Case, answer: &Answer) -> Option<Block> {
    let (state, [step, part, number]) = match (operation, *answer) {
        (Operation::Run, [3, step, part, number, ..]) => (case.state, [step, part, number]),
        (Operation::Judge, [2, _, state, 3, step, part, number, _]) => {
            (state, [step, part, number])
        }
        _ => return None,
    };
    Some(Block {
        state,
        step,
        part,
        number,
    })
}

/// The blocks of one operation.
#[derive(Default)]
struct Blocks {
    /// Part and number of each.
    parts: BTreeSet<(u64, u64)>,
    /// At so many, several facts had both conditions true.
    of_several_facts: u32,
    /// At so many, the precondition was unmet and a fact had both conditions true.
    unmet_with_conflict: u32,
}

impl Blocks {
    fn meet(&mut self, case: &Case, block: &Block) {
        self.parts.insert((block.part, block.number));
        let task = Task::parse(&case.problem, &case.plan).expect("a block needs sound input");
        let start = task.problem.version.values(block.state, task.problem.facts);
        let step = block.step as usize;
        let before = &states(&task, &start)[step];
        let action = &task.problem.actions[usize::from(task.plan[step])];
        let facts = conflicts(action, before).len();
        let met = holds(&action.precondition, before);
        self.of_several_facts += u32::from(met && facts > 1);
        self.unmet_with_conflict += u32::from(!met && facts > 0);
    }

    fn join(&mut self, other: Blocks) {
        self.parts.extend(other.parts);
        self.of_several_facts += other.of_several_facts;
        self.unmet_with_conflict += other.unmet_with_conflict;
    }

    fn are_of_every_kind(&self, operation: &str) {
        for part in [0, 1] {
            for number in 0..NUMBERS {
                let met = self.parts.contains(&(part, number));
                assert!(met, "{operation}, part {part}, number {number}");
            }
        }
        let (several, unmet) = (self.of_several_facts, self.unmet_with_conflict);
        assert!(
            several > 100 && unmet > 100,
            "{operation}: {several} {unmet}"
        );
    }
}

of_each_version! {
    every_operation_answers_as_the_oracle_and_every_refusal_is_met,
    the_safe_crate_says_the_same,
}

/// The sweeps in parts of at most so many cases, each from a seed of its own, so that they can
/// be gone through side by side.
const PART: usize = 2_500;

fn parts() -> Vec<(u64, usize, Maker)> {
    let parts_of = |(seed, count, make): (u64, usize, Maker)| {
        let seeds = (0..).map(move |part: u64| seed | part << 16);
        let starts = (0..count).step_by(PART).zip(seeds);
        starts.map(move |(start, seed)| (seed, PART.min(count - start), make))
    };
    SWEEPS.into_iter().flat_map(parts_of).collect()
}

/// What was met in cases.
#[derive(Default)]
struct Met {
    refusals: BTreeSet<u64>,
    /// Operation, tag, and of a wrong plan the outcome.
    tags: BTreeSet<(u8, u64, u64)>,
    runs: Blocks,
    judges: Blocks,
}

impl Met {
    fn meet(&mut self, operation: Operation, case: &Case, answer: &Answer) {
        if let Some(block) = block(operation, case, answer) {
            let blocks = match operation {
                Operation::Run => &mut self.runs,
                _ => &mut self.judges,
            };
            blocks.meet(case, &block);
        }
        match *answer {
            [0, number, ..] => {
                self.refusals.insert(number);
            }
            // A wrong plan's outcome is part of what is met.
            [2, _, _, outcome, ..] => {
                self.tags.insert((operation as u8, 2, outcome));
            }
            [tag, ..] => {
                self.tags.insert((operation as u8, tag, 0));
            }
        }
    }

    fn join(&mut self, other: Met) {
        self.refusals.extend(other.refusals);
        self.tags.extend(other.tags);
        self.runs.join(other.runs);
        self.judges.join(other.judges);
    }
}

/// Goes through the cases of a part.
fn met_in((seed, count, make): (u64, usize, Maker), version: &Version) -> Met {
    let mut met = Met::default();
    let mut rng = Rng::new(seed);
    for round in 0..count {
        let case = make(&mut rng, version);
        let answers = match check_all(&Library, &case) {
            Ok(answers) => answers,
            Err(difference) => panic!("seed {seed:x}, round {round}: {difference:?}"),
        };
        for (operation, answer) in Operation::ALL.into_iter().zip(answers) {
            met.meet(operation, &case, &answer);
        }
    }
    met
}

/// Goes through all parts, with as many threads as there are processors.
fn met_in_all(version: &Version) -> Met {
    let (parts, next) = (parts(), AtomicUsize::new(0));
    let take = || {
        let mut met = Met::default();
        while let Some(part) = parts.get(next.fetch_add(1, Ordering::Relaxed)) {
            met.join(met_in(*part, version));
        }
        met
    };
    let threads = thread::available_parallelism().map_or(1, NonZero::get);
    thread::scope(|scope| {
        let started: Vec<_> = (0..threads).map(|_| scope.spawn(take)).collect();
        let mut all = Met::default();
        for thread in started {
            all.join(thread.join().expect("every answer is the oracle's"));
        }
        all
    })
}

fn every_operation_answers_as_the_oracle_and_every_refusal_is_met(version: &Version) {
    let Met {
        refusals,
        tags,
        runs,
        judges,
    } = met_in_all(version);
    assert_eq!(refusals, every_refusal());
    let (run, judge) = (Operation::Run as u8, Operation::Judge as u8);
    let search = Operation::SearchPlans as u8;
    let every_tag = [
        (Operation::ReadProblem as u8, 1, 0),
        (Operation::ReadPlan as u8, 1, 0),
        (run, 1, 0),
        (run, 2, 0),
        (run, 3, 0),
        (judge, 1, 0),
        (judge, 2, 2),
        (judge, 2, 3),
        (judge, 3, 0),
        (Operation::WriteList as u8, 1, 0),
        (Operation::FollowList as u8, 1, 0),
        (Operation::RelevantFacts as u8, 1, 0),
        (Operation::RelevantFactsSparse as u8, 1, 0),
        (search, 1, 0),
        (search, 2, 0),
        (search, 3, 0),
        (Operation::Merge as u8, 1, 0),
    ];
    assert_eq!(tags, every_tag.into());
    runs.are_of_every_kind("run");
    judges.are_of_every_kind("judge");
}

fn refusal(refusal: oracle::Refusal) -> larkhammock::Refusal {
    larkhammock::Refusal {
        number: refusal.number,
        place: refusal.place,
    }
}

fn outcome(outcome: oracle::Outcome) -> larkhammock::Outcome {
    match outcome {
        oracle::Outcome::Reached => larkhammock::Outcome::Reached,
        oracle::Outcome::Missed => larkhammock::Outcome::Missed,
        oracle::Outcome::Blocked { step, part: named } => larkhammock::Outcome::Blocked {
            step,
            part: part(named),
        },
    }
}

fn part(part: oracle::Part) -> larkhammock::Part {
    match part {
        oracle::Part::Member(member) => larkhammock::Part::Member(member),
        oracle::Part::Fact(fact) => larkhammock::Part::Fact(fact),
    }
}

fn verdict(problem: &[u8], verdict: oracle::Verdict) -> larkhammock::Verdict {
    match verdict {
        oracle::Verdict::Right { lines, visits } => larkhammock::Verdict::Right { lines, visits },
        oracle::Verdict::Wrong {
            state,
            outcome: ended,
            visits,
        } => larkhammock::Verdict::Wrong {
            state: safe::state(&oracle::read_problem(problem).expect("it is sound"), state),
            outcome: outcome(ended),
            visits,
        },
        oracle::Verdict::Undecided { visits } => larkhammock::Verdict::Undecided { visits },
    }
}

fn values(states: larkhammock::States) -> Vec<Vec<bool>> {
    states
        .map(|state| state.iter().map(|value| *value == 1).collect())
        .collect()
}

fn told(run: larkhammock::ReachedRun) -> oracle::ReachedRun {
    oracle::ReachedRun {
        facts: run.facts.iter().map(|fact| fact as u8).collect(),
        set: run.facts.state().number(),
        states: values(run.states),
    }
}

fn told_sparsely(run: larkhammock::SparseRun) -> oracle::SparseRun {
    oracle::SparseRun {
        facts: run.facts.iter().map(|fact| fact as u8).collect(),
        set: run.facts.state().number(),
        kept: values(run.kept),
        first: values(run.first),
    }
}

fn search(search: larkhammock::Search) -> oracle::Search {
    let steps = |plan: larkhammock::ShortPlan| plan.steps().to_vec();
    match search {
        larkhammock::Search::Found { plan, visits } => oracle::Search::Found {
            plan: steps(plan),
            visits,
        },
        larkhammock::Search::NoneRight { visits } => oracle::Search::NoneRight { visits },
        larkhammock::Search::Undecided { plan, visits } => oracle::Search::Undecided {
            plan: steps(plan),
            visits,
        },
        other => panic!("{other:?}"),
    }
}

fn merged(merged: larkhammock::Merged) -> oracle::Merged {
    oracle::Merged {
        block: merged.problem.to_vec(),
        numbers: merged.numbers.to_vec(),
    }
}

/// The state of this number, if the problem has one; of a block that is no problem,
/// some state.
fn state_of(problem: &[u8], number: u64) -> Option<larkhammock::State> {
    let Ok(problem) = oracle::read_problem(problem) else {
        return Some(larkhammock::State::new(larkhammock::Version::V1, 1));
    };
    let version = safe::version(&problem.version);
    larkhammock::State::of_number(version, problem.facts.into(), number)
}

/// The named types of the safe crate say the same as the oracle's.
fn the_safe_crate_says_the_same(version: &Version) {
    let mut rng = Rng::new(0x5afe);
    for round in 0..4_000 {
        let case = case_of_round(&mut rng, version, round);
        let Case {
            problem,
            plan,
            list,
            state,
            grant,
            room,
            work,
            sparse_work,
            longest,
            shared_grant,
            ..
        } = &case;
        assert_eq!(
            larkhammock::read_problem(problem),
            oracle::read_problem(problem)
                .map(|problem| larkhammock::Counts {
                    version: safe::version(&problem.version),
                    facts: problem.facts.into(),
                    actions: problem.actions.len() as u64,
                })
                .map_err(refusal)
        );
        assert_eq!(
            larkhammock::read_plan(problem, plan),
            oracle::read_plan(problem, plan).map_err(refusal)
        );
        // What is no state of the problem can't be said in named types.
        let start = state_of(problem, *state);
        if let Some(start) = start {
            assert_eq!(
                larkhammock::run(problem, plan, start),
                oracle::run(problem, plan, *state)
                    .map(outcome)
                    .map_err(refusal)
            );
            assert_eq!(
                larkhammock::relevant_facts(problem, plan, start, &mut vec![0; *work]).map(told),
                oracle::relevant_facts(problem, plan, *state, *work).map_err(refusal)
            );
            let few = &mut vec![0; *sparse_work];
            assert_eq!(
                larkhammock::relevant_facts_sparse(problem, plan, start, few).map(told_sparsely),
                oracle::relevant_facts_sparse(problem, plan, *state, *sparse_work).map_err(refusal)
            );
        }
        assert_eq!(
            larkhammock::judge(problem, plan, *grant),
            oracle::judge(problem, plan, *grant)
                .map(|told| verdict(problem, told))
                .map_err(refusal)
        );
        assert_eq!(
            larkhammock::write_list(problem, plan, *grant, &mut vec![0; *room]),
            oracle::write_list(problem, plan, *grant, *room)
                .map(|block| block.len())
                .map_err(refusal)
        );
        assert_eq!(
            larkhammock::follow_list(problem, plan, list),
            oracle::follow_list(problem, plan, list).map_err(refusal)
        );
        assert_eq!(
            larkhammock::search_plans(problem, *longest, *shared_grant).map(search),
            oracle::search_plans(problem, *longest, *shared_grant).map_err(refusal)
        );
        merges_the_same(&case);
    }
}

fn merges_the_same(case: &Case) {
    let lent = [case.block_room, case.places];
    let (mut out, mut table) = (vec![0; lent[0]], vec![0; lent[1]]);
    let told = larkhammock::merge(&case.problem, &case.second, &mut out, &mut table).map(merged);
    let expected = oracle::merge_blocks([&case.problem, &case.second], lent);
    assert_eq!(told, expected.map_err(refusal));
}

/// Every number has words of its own.
#[test]
fn every_refusal_has_its_meaning() {
    let meanings: BTreeSet<&str> = every_refusal()
        .into_iter()
        .map(|number| larkhammock::Refusal { number, place: 0 }.meaning())
        .collect();
    assert_eq!(meanings.len(), every_refusal().len());
    let unknown = larkhammock::Refusal {
        number: 99,
        place: 0,
    };
    assert!(!meanings.contains(unknown.meaning()));
}
