//! The tests tested: a library with one fault does not get past the harness.

use crate::former::{with_sets_winning, MOVES};
use crate::layouts::Layout;
use crate::merges::{self, Merger};
use crate::rules::Rule;
use crate::searches::Searcher;
use crate::support::Library;
use conformance::answer::{self, words, Answer};
use conformance::encode;
use conformance::families;
use conformance::gen::{case_of_round, sound_case, Rng};
use conformance::harness::{check, expected, Arena, Case, Operation, Subject};
use conformance::model::{Action, Formula, Kind, Line, Problem};
use conformance::oracle::{self, conflicts, holds, states, walk, Task};
use conformance::trial;
use conformance::version::{Version, HEADER, VERSION_1};

/// The library with one word of one operation's answer changed.
struct Tampered {
    operation: Operation,
    word: usize,
    bit: u32,
}

impl Tampered {
    fn tamper(&self, operation: Operation, mut answer: Answer) -> Answer {
        if operation == self.operation {
            answer[self.word] ^= 1 << self.bit;
        }
        answer
    }
}

impl Subject for Tampered {
    fn read_problem(&self, problem: &[u8]) -> Answer {
        self.tamper(Operation::ReadProblem, Library.read_problem(problem))
    }

    fn read_plan(&self, problem: &[u8], plan: &[u8]) -> Answer {
        self.tamper(Operation::ReadPlan, Library.read_plan(problem, plan))
    }

    fn run(&self, problem: &[u8], plan: &[u8], state: u64) -> Answer {
        self.tamper(Operation::Run, Library.run(problem, plan, state))
    }

    fn judge(&self, problem: &[u8], plan: &[u8], grant: u64) -> Answer {
        self.tamper(Operation::Judge, Library.judge(problem, plan, grant))
    }

    fn write_list(&self, problem: &[u8], plan: &[u8], grant: u64, arena: &mut Arena) -> Answer {
        let answer = Library.write_list(problem, plan, grant, arena);
        self.tamper(Operation::WriteList, answer)
    }

    fn follow_list(&self, problem: &[u8], plan: &[u8], list: &[u8]) -> Answer {
        self.tamper(
            Operation::FollowList,
            Library.follow_list(problem, plan, list),
        )
    }

    fn relevant_facts(&self, problem: &[u8], plan: &[u8], state: u64, arena: &mut Arena) -> Answer {
        let answer = Library.relevant_facts(problem, plan, state, arena);
        self.tamper(Operation::RelevantFacts, answer)
    }

    fn relevant_facts_sparse(
        &self,
        problem: &[u8],
        plan: &[u8],
        state: u64,
        arena: &mut Arena,
    ) -> Answer {
        let answer = Library.relevant_facts_sparse(problem, plan, state, arena);
        self.tamper(Operation::RelevantFactsSparse, answer)
    }

    fn search_plans(&self, problem: &[u8], longest: u64, grant: u64) -> Answer {
        self.tamper(
            Operation::SearchPlans,
            Library.search_plans(problem, longest, grant),
        )
    }

    fn merge(&self, first: &[u8], second: &[u8], out: &mut Arena, table: &mut Arena) -> Answer {
        let answer = Library.merge(first, second, out, table);
        self.tamper(Operation::Merge, answer)
    }
}

of_each_version! {
    each_word_of_each_answer_is_compared,
    each_wrong_idea_is_found_out,
    each_wrong_idea_of_versions_is_found_out,
    each_wrong_layout_is_found_out,
    each_wrong_search_is_found_out,
    each_wrong_merge_is_found_out,
    each_byte_of_the_buffers_and_their_guards_is_compared,
    the_oracle_without_a_fault_is_not_found_out,
}

fn each_word_of_each_answer_is_compared(version: &Version) {
    let mut rng = Rng::new(0x307d);
    for round in 0..60 {
        let case = case_of_round(&mut rng, version, round);
        for operation in Operation::ALL {
            check(&Library, operation, &case).expect("the library is as it should be");
            for word in 0..8 {
                let bit = rng.below(64) as u32;
                let tampered = Tampered {
                    operation,
                    word,
                    bit,
                };
                let found = check(&tampered, operation, &case);
                assert!(found.is_err(), "{operation:?}, word {word}, bit {bit}");
            }
        }
    }
}

/// The oracle itself, to be made worse on purpose.
pub struct Oracle;

impl Subject for Oracle {
    fn read_problem(&self, problem: &[u8]) -> Answer {
        ask(Operation::ReadProblem, problem, &[], |_| {}).0
    }

    fn read_plan(&self, problem: &[u8], plan: &[u8]) -> Answer {
        ask(Operation::ReadPlan, problem, plan, |_| {}).0
    }

    fn run(&self, problem: &[u8], plan: &[u8], state: u64) -> Answer {
        ask(Operation::Run, problem, plan, |case| case.state = state).0
    }

    fn judge(&self, problem: &[u8], plan: &[u8], grant: u64) -> Answer {
        ask(Operation::Judge, problem, plan, |case| case.grant = grant).0
    }

    fn write_list(&self, problem: &[u8], plan: &[u8], grant: u64, arena: &mut Arena) -> Answer {
        let room = arena.out().len();
        let (answer, left) = ask(Operation::WriteList, problem, plan, |case| {
            case.grant = grant;
            case.room = room;
        });
        *arena = left;
        answer
    }

    fn follow_list(&self, problem: &[u8], plan: &[u8], list: &[u8]) -> Answer {
        ask(Operation::FollowList, problem, plan, |case| {
            case.list = list.to_vec()
        })
        .0
    }

    fn relevant_facts(&self, problem: &[u8], plan: &[u8], state: u64, arena: &mut Arena) -> Answer {
        let work = arena.out().len();
        let (answer, left) = ask(Operation::RelevantFacts, problem, plan, |case| {
            case.state = state;
            case.work = work;
        });
        *arena = left;
        answer
    }

    fn relevant_facts_sparse(
        &self,
        problem: &[u8],
        plan: &[u8],
        state: u64,
        arena: &mut Arena,
    ) -> Answer {
        let work = arena.out().len();
        let (answer, left) = ask(Operation::RelevantFactsSparse, problem, plan, |case| {
            case.state = state;
            case.sparse_work = work;
        });
        *arena = left;
        answer
    }

    fn search_plans(&self, problem: &[u8], longest: u64, grant: u64) -> Answer {
        ask(Operation::SearchPlans, problem, &[], |case| {
            case.longest = longest;
            case.shared_grant = grant;
        })
        .0
    }

    fn merge(&self, first: &[u8], second: &[u8], out: &mut Arena, table: &mut Arena) -> Answer {
        let case = Case {
            problem: first.to_vec(),
            second: second.to_vec(),
            block_room: out.room.len(),
            places: table.room.len(),
            ..Case::default()
        };
        let effect = expected(Operation::Merge, &case);
        (*out, *table) = (effect.arena, effect.table);
        effect.answer
    }
}

fn ask(
    operation: Operation,
    problem: &[u8],
    plan: &[u8],
    fill: impl Fn(&mut Case),
) -> (Answer, Arena) {
    let mut case = Case {
        problem: problem.to_vec(),
        plan: plan.to_vec(),
        ..Case::default()
    };
    fill(&mut case);
    let effect = expected(operation, &case);
    (effect.answer, effect.arena)
}

/// The version of a problem; where there is none, some version.
fn version_of(problem: &[u8]) -> Version {
    oracle::read_problem(problem).map_or(VERSION_1, |problem| problem.version)
}

/// A block with the other version's byte.
fn of_the_other(block: &[u8]) -> Vec<u8> {
    let mut block = block.to_vec();
    if let Some(byte @ (1 | 2)) = block.first_mut() {
        *byte = 3 - *byte;
    }
    block
}

/// The oracle with one wrong idea.
#[derive(Clone, Copy, Debug)]
enum Fault {
    /// Changes one byte of the buffer or its guards, from the first guard on.
    StrayByte(usize),
    /// The same of the table of a merge.
    StrayPlace(usize),
    NoProblemIsSound,
    NoPlanIsSound,
    RunIsNeverMissed,
    GoalReadAtTheStart,
    OnlyStep0IsObeyed,
    EffectsStoredOneByOne,
    SetWinsOverClear,
    UnknownConflictIsNone,
    ConflictBeforePrecondition,
    HighestFact,
    MemberIsAlways0,
    MemberReadAtTheStart,
    LastFalseMember,
    AllPlansWrong,
    AlwaysTheSameState,
    VisitsMadeUp,
    FailingStateNeedNotBeAStart,
    FirstCompletionDecides,
    GrantMustExceedVisits,
    NothingIsWritten,
    WrittenPastTheLength,
    NoListPasses,
    EveryListPasses,
    OnlyLine0IsTested,
    EndIsNotTested,
    EmptyCarriesToo,
    /// Goes by this rule for what matters before a step.
    Relevant(Rule),
    /// Lays out the few states that are kept of a run in this way.
    LaysOut(Layout),
    /// Tries short plans in this way.
    Searches(Searcher),
    /// Merges two problems in this way.
    Merges(Merger),
    NoRunIsTold,
    WorkBeforeOutcome,
    NoStateIsWritten,
    StatesBackward,
    LastStateForgotten,
    WrittenThoughRefused,
    /// The end of a full cover is taken for that of no line.
    FullCoverIsEmpty,
    EmptyListPasses,
    OtherVersionPasses,
    /// 71 comes after 63.
    LengthBeforeVersion,
    /// 71 comes before 60.
    VersionBeforeSize,
    SizeOfTheOtherVersion,
    LimitsOfTheOtherVersion,
    StatesOfTheOtherVersion,
}

/// What one may get wrong where the versions differ.
const WRONG_VERSIONS: [Fault; 8] = [
    Fault::FullCoverIsEmpty,
    Fault::EmptyListPasses,
    Fault::OtherVersionPasses,
    Fault::LengthBeforeVersion,
    Fault::VersionBeforeSize,
    Fault::SizeOfTheOtherVersion,
    Fault::LimitsOfTheOtherVersion,
    Fault::StatesOfTheOtherVersion,
];

const WRONG_IDEAS: [Fault; 32] = [
    Fault::NoProblemIsSound,
    Fault::NoPlanIsSound,
    Fault::RunIsNeverMissed,
    Fault::GoalReadAtTheStart,
    Fault::OnlyStep0IsObeyed,
    Fault::EffectsStoredOneByOne,
    Fault::SetWinsOverClear,
    Fault::UnknownConflictIsNone,
    Fault::ConflictBeforePrecondition,
    Fault::HighestFact,
    Fault::MemberIsAlways0,
    Fault::MemberReadAtTheStart,
    Fault::LastFalseMember,
    Fault::AllPlansWrong,
    Fault::AlwaysTheSameState,
    Fault::VisitsMadeUp,
    Fault::FailingStateNeedNotBeAStart,
    Fault::FirstCompletionDecides,
    Fault::GrantMustExceedVisits,
    Fault::NothingIsWritten,
    Fault::WrittenPastTheLength,
    Fault::NoListPasses,
    Fault::EveryListPasses,
    Fault::OnlyLine0IsTested,
    Fault::EndIsNotTested,
    Fault::EmptyCarriesToo,
    Fault::NoRunIsTold,
    Fault::WorkBeforeOutcome,
    Fault::NoStateIsWritten,
    Fault::StatesBackward,
    Fault::LastStateForgotten,
    Fault::WrittenThoughRefused,
];

impl Subject for Fault {
    fn read_problem(&self, problem: &[u8]) -> Answer {
        match (self, Oracle.read_problem(problem)) {
            (Fault::LimitsOfTheOtherVersion, _) => Oracle.read_problem(&of_the_other(problem)),
            (Fault::NoProblemIsSound, [1, ..]) => words(&[0, 12, 0]),
            (_, answer) => answer,
        }
    }

    fn read_plan(&self, problem: &[u8], plan: &[u8]) -> Answer {
        match (self, Oracle.read_plan(problem, plan)) {
            (Fault::NoPlanIsSound, [1, ..]) => words(&[0, 32, 0]),
            (_, answer) => answer,
        }
    }

    fn run(&self, problem: &[u8], plan: &[u8], state: u64) -> Answer {
        let answer = Oracle.run(problem, plan, state);
        let reached = |yes| words(&[if yes { 1 } else { 2 }]);
        match (self, answer) {
            (Fault::StatesOfTheOtherVersion, _) => Oracle.run(&of_the_other(problem), plan, state),
            (_, [0, ..]) => answer,
            (Fault::RunIsNeverMissed, [2, ..]) => words(&[1]),
            (Fault::GoalReadAtTheStart, [1 | 2, ..]) => {
                let problem = oracle::read_problem(problem).expect("it is sound");
                reached(holds(
                    &problem.goal,
                    &problem.version.values(state, problem.facts),
                ))
            }
            (Fault::OnlyStep0IsObeyed, _) if plan.len() > HEADER => {
                Oracle.run(problem, &encode::plan(&plan[HEADER..=HEADER]), state)
            }
            (Fault::EffectsStoredOneByOne, [1 | 2, ..]) => {
                let problem = oracle::read_problem(problem).expect("it is sound");
                let mut now = problem.version.values(state, problem.facts);
                for step in &plan[HEADER..] {
                    for effect in &problem.actions[usize::from(*step)].effects {
                        if holds(&effect.condition, &now) {
                            now[usize::from(effect.literal.fact)] = !effect.literal.denied;
                        }
                    }
                }
                reached(holds(&problem.goal, &now))
            }
            (Fault::SetWinsOverClear, [3, _, 1, ..]) => {
                let task = Task::parse(problem, plan).expect("both are sound");
                let Some(task) = with_sets_winning(&task) else {
                    return answer;
                };
                let mut start = task.problem.version.values(state, task.problem.facts / 2);
                start.resize(task.problem.facts.into(), false);
                let [tag, step, rest @ ..] = answer::run(&Ok(oracle::outcome(&task, &start)));
                words(&[&[tag, step / u64::from(MOVES)], &rest[..]].concat())
            }
            (Fault::ConflictBeforePrecondition, [3, step, 0, ..]) => {
                let mut problem = oracle::read_problem(problem).expect("it is sound");
                let action = plan[HEADER + step as usize];
                problem.actions[usize::from(action)].precondition = Formula::always();
                match Oracle.run(&encode::problem(&problem), plan, state) {
                    [3, again, 1, fact, ..] if again == step => words(&[3, step, 1, fact]),
                    _ => answer,
                }
            }
            (Fault::HighestFact, [3, step, 1, ..]) => {
                let task = Task::parse(problem, plan).expect("both are sound");
                let start = task.problem.version.values(state, task.problem.facts);
                let before = &states(&task, &start)[step as usize];
                let action = usize::from(task.plan[step as usize]);
                let facts = conflicts(&task.problem.actions[action], before);
                let highest = facts.last().expect("a fact blocks it");
                words(&[3, step, 1, u64::from(*highest)])
            }
            (Fault::MemberIsAlways0, [3, step, 0, ..]) => words(&[3, step]),
            (Fault::MemberReadAtTheStart, [3, step, 0, ..]) => {
                let at = HEADER + step as usize;
                let alone = Oracle.run(problem, &encode::plan(&plan[at..=at]), state);
                words(&[3, step, alone[2], alone[3]])
            }
            (Fault::LastFalseMember, [3, step, 0, ..]) => {
                let mut problem = oracle::read_problem(problem).expect("it is sound");
                let action = plan[HEADER + step as usize];
                let precondition = &mut problem.actions[usize::from(action)].precondition;
                let Formula::Group(Kind::All, members) = precondition else {
                    return answer;
                };
                members.reverse();
                let last = members.len() as u64 - 1;
                let turned = Oracle.run(&encode::problem(&problem), plan, state);
                words(&[3, step, 0, last - turned[3]])
            }
            _ => answer,
        }
    }

    fn judge(&self, problem: &[u8], plan: &[u8], grant: u64) -> Answer {
        let answer = Oracle.judge(problem, plan, grant);
        match (self, answer) {
            (Fault::AllPlansWrong, [1, visits, ..]) => words(&[2, visits, 0, 2]),
            (Fault::AlwaysTheSameState, [2, visits, _, outcome @ ..]) => {
                words(&[&[2, visits, version_of(problem).bit(0)], &outcome[..]].concat())
            }
            (Fault::VisitsMadeUp, [1, visits, lines, ..]) => words(&[1, visits + lines - 1, lines]),
            (Fault::FailingStateNeedNotBeAStart, [2, ..]) => {
                let mut anywhere = oracle::read_problem(problem).expect("it is sound");
                anywhere.initial = Formula::always();
                let other = Oracle.judge(&encode::problem(&anywhere), plan, grant);
                words(&[&[2, answer[1]], &other[2..]].concat())
            }
            (Fault::FirstCompletionDecides, [2, _, state, ..]) if state != 0 => words(&[1, 1, 1]),
            (Fault::GrantMustExceedVisits, [1 | 2, visits, ..]) if visits == grant => {
                words(&[3, grant])
            }
            (Fault::UnknownConflictIsNone, [1, ..]) => {
                let task = Task::parse(problem, plan).expect("both are sound");
                with_sets_winning(&task).map_or(answer, |task| {
                    let walk = walk(&task, grant);
                    words(&[1, walk.visits, walk.lines.len() as u64])
                })
            }
            _ => answer,
        }
    }

    fn write_list(&self, problem: &[u8], plan: &[u8], grant: u64, arena: &mut Arena) -> Answer {
        let before = arena.clone();
        let answer = Oracle.write_list(problem, plan, grant, arena);
        match (self, answer) {
            (Fault::StrayByte(at), _) => arena.bytes[*at] ^= 1,
            (Fault::NothingIsWritten, _) => *arena = before,
            (Fault::WrittenPastTheLength, [1, length, ..]) => {
                if let Some(past) = arena.out().get_mut(length as usize) {
                    *past = 0;
                }
            }
            _ => {}
        }
        answer
    }

    fn follow_list(&self, problem: &[u8], plan: &[u8], list: &[u8]) -> Answer {
        let answer = Oracle.follow_list(problem, plan, list);
        let version = version_of(problem);
        let passes = words(&[1, (list.len() / version.line_bytes) as u64]);
        match (self, answer) {
            (Fault::NoListPasses, [1, ..]) => words(&[0, 69, 0]),
            (Fault::EveryListPasses, [0, 65..=70, ..]) => passes,
            (Fault::OnlyLine0IsTested, [0, 65..=70, place, ..]) if place > 0 => passes,
            (Fault::EndIsNotTested, [0, 70, ..]) => passes,
            (Fault::EmptyListPasses, [0, 70, 0, ..]) => passes,
            (Fault::FullCoverIsEmpty, [0, 68, place, ..]) => {
                let before = &list[HEADER..version.list_bytes(place as usize)];
                let rest = &list[version.list_bytes(place as usize)..];
                let follow =
                    |lines| Oracle.follow_list(problem, plan, &encode::block(&version, lines));
                match (follow(before), follow(rest)) {
                    ([1, ..], [1, ..]) => passes,
                    _ => answer,
                }
            }
            (Fault::OtherVersionPasses, [0, 71, ..]) => passes,
            (Fault::LengthBeforeVersion, [0, 71, ..]) => {
                match Oracle.follow_list(problem, plan, &of_the_other(list)) {
                    refused @ [0, 63, ..] => refused,
                    _ => answer,
                }
            }
            (Fault::VersionBeforeSize, [0, 60, ..]) if list[0] == version.other().byte => {
                words(&[0, 71])
            }
            (Fault::SizeOfTheOtherVersion, [0, 60, ..]) => words(&[0, 62]),
            (Fault::SizeOfTheOtherVersion, [0, 61..=71, ..] | [1, ..])
                if list.len() > version.other().most_bytes() =>
            {
                words(&[0, 60, version.other().most_bytes() as u64])
            }
            (Fault::EmptyCarriesToo, [0, 69, line, ..]) => {
                // The line claims that it carries, and is empty.
                let mut empty = list.to_vec();
                let kind = std::mem::take(&mut empty[version.list_bytes(line as usize)]);
                match Oracle.follow_list(problem, plan, &empty) {
                    [0, 69, again, ..] if again == line => answer,
                    _ if kind == 1 => passes,
                    _ => answer,
                }
            }
            _ => answer,
        }
    }

    fn relevant_facts(&self, problem: &[u8], plan: &[u8], state: u64, arena: &mut Arena) -> Answer {
        let before = arena.clone();
        let answer = Oracle.relevant_facts(problem, plan, state, arena);
        match (self, answer) {
            (Fault::StrayByte(at), _) => arena.bytes[*at] ^= 1,
            (Fault::NoStateIsWritten, _) => *arena = before,
            (Fault::StatesBackward, [1, ..]) => {
                let task = Task::parse(problem, plan).expect("both are sound");
                let rows = &mut arena.out()[..task.work_bytes()];
                let turned: Vec<&[u8]> = rows.rchunks(task.problem.facts.into()).collect();
                let turned = turned.concat();
                rows.copy_from_slice(&turned);
            }
            (Fault::LastStateForgotten, [1, ..]) => {
                let task = Task::parse(problem, plan).expect("both are sound");
                let facts = usize::from(task.problem.facts);
                let last = arena.room.start + task.work_bytes() - facts;
                arena.bytes[last..][..facts].copy_from_slice(&before.bytes[last..][..facts]);
            }
            (Fault::WrittenThoughRefused, [0, 41 | 42, ..]) => {
                let task = Task::parse(problem, plan).expect("both are sound");
                let start = task.problem.version.values(state, task.problem.facts);
                for (byte, value) in arena.out().iter_mut().zip(start) {
                    *byte = u8::from(value);
                }
            }
            (Fault::Relevant(rule), [1, ..]) => {
                let task = Task::parse(problem, plan).expect("both are sound");
                let Problem { version, facts, .. } = task.problem;
                let start = version.values(state, facts);
                let facts = rule.relevant(&task, &states(&task, &start));
                let bits = facts.into_iter().map(|fact| version.bit(fact));
                return words(&[1, bits.sum()]);
            }
            (Fault::NoRunIsTold, [1, ..]) => {
                *arena = before;
                return words(&[0, 41]);
            }
            (Fault::WorkBeforeOutcome, [0, 41, ..]) => {
                let task = Task::parse(problem, plan).expect("both are sound");
                if arena.room.len() < task.work_bytes() {
                    return words(&[0, 42]);
                }
            }
            _ => {}
        }
        answer
    }

    fn relevant_facts_sparse(
        &self,
        problem: &[u8],
        plan: &[u8],
        state: u64,
        arena: &mut Arena,
    ) -> Answer {
        let before = arena.clone();
        let answer = Oracle.relevant_facts_sparse(problem, plan, state, arena);
        match (self, answer) {
            (Fault::StrayByte(at), _) => arena.bytes[*at] ^= 1,
            (Fault::LaysOut(layout), [1, ..]) => {
                let task = Task::parse(problem, plan).expect("both are sound");
                let start = task.problem.version.values(state, task.problem.facts);
                *arena = before;
                layout.write(&states(&task, &start), arena.out());
            }
            _ => {}
        }
        answer
    }

    fn search_plans(&self, problem: &[u8], longest: u64, grant: u64) -> Answer {
        match self {
            Fault::Searches(searcher) => searcher.answer(problem, longest, grant),
            _ => Oracle.search_plans(problem, longest, grant),
        }
    }

    fn merge(&self, first: &[u8], second: &[u8], out: &mut Arena, table: &mut Arena) -> Answer {
        if let Fault::Merges(merger) = self {
            return merger.answer([first, second], [out, table]);
        }
        let answer = Oracle.merge(first, second, out, table);
        match self {
            Fault::StrayByte(at) => out.bytes[*at] ^= 1,
            Fault::StrayPlace(at) => table.bytes[*at] ^= 1,
            _ => {}
        }
        answer
    }
}

fn each_wrong_idea_is_found_out(version: &Version) {
    let rules = Rule::WRONG.map(Fault::Relevant);
    for fault in WRONG_IDEAS.into_iter().chain(rules) {
        let mut rng = Rng::new(0xfa17);
        let found = (0..2_000).any(|_| {
            let case = sound_case(&mut rng, version);
            let wrong = |operation: &Operation| check(&fault, *operation, &case).is_err();
            Operation::ALL.iter().any(wrong)
        });
        assert!(found, "{fault:?} gets past 2,000 cases");
    }
}

/// Cases in which it matters of which version a block is.
fn cases_of_versions(version: &Version) -> Vec<Case> {
    let other = version.other();
    let whole = Line {
        kind: 1,
        k: 0,
        value: 0,
    };
    let lists = [
        encode::list(version, &[]),
        encode::list(version, &[whole; 2]),
        encode::list(&other, &[whole]),
        vec![other.byte; HEADER],
        vec![other.byte; 65_536],
        vec![9; 65_534],
    ];
    // 49 facts are too many in version 1.
    let problems = [families::idle(*version, 1), families::idle(*version, 49)];
    let case = |problem: &Problem, list: &Vec<u8>| Case {
        problem: encode::problem(problem),
        plan: encode::plan(&[]),
        list: list.clone(),
        state: version.bit(0),
        ..Case::default()
    };
    let cases = |problem| lists.iter().map(move |list| case(problem, list));
    problems.iter().flat_map(cases).collect()
}

fn each_wrong_idea_of_versions_is_found_out(version: &Version) {
    let cases = cases_of_versions(version);
    for fault in WRONG_VERSIONS {
        let found = cases.iter().any(|case| {
            let wrong = |operation: &Operation| check(&fault, *operation, case).is_err();
            Operation::ALL.iter().any(wrong)
        });
        assert!(found, "{fault:?} gets past");
    }
    for case in &cases {
        for operation in Operation::ALL {
            check(&Oracle, operation, case).expect("the same twice");
        }
    }
}

fn each_wrong_layout_is_found_out(version: &Version) {
    for layout in Layout::WRONG {
        let fault = Fault::LaysOut(layout);
        let mut rng = Rng::new(0xfa19);
        let found = (0..2_000).any(|_| {
            let case = sound_case(&mut rng, version);
            check(&fault, Operation::RelevantFactsSparse, &case).is_err()
        });
        assert!(found, "{layout:?} gets past 2,000 cases");
    }
}

/// Searches with as many actions as may be and one more, which are few among the
/// generated: no visit is granted, so that they end at once.
fn searches_at_the_edge(version: &Version) -> Vec<Case> {
    let idle = Action {
        precondition: Formula::always(),
        effects: Vec::new(),
    };
    let search = |actions: usize, longest| {
        let problem = Problem {
            actions: vec![idle.clone(); actions],
            ..families::idle(*version, 1)
        };
        Case {
            problem: encode::problem(&problem),
            longest,
            ..Case::default()
        }
    };
    vec![search(31, 4), search(32, 4), search(32, 5)]
}

fn each_wrong_search_is_found_out(version: &Version) {
    for searcher in Searcher::WRONG {
        let fault = Fault::Searches(searcher);
        let mut rng = Rng::new(0xfa18);
        let generated = (0..2_000).map(|_| sound_case(&mut rng, version));
        let mut cases = searches_at_the_edge(version).into_iter().chain(generated);
        let found = cases.any(|case| check(&fault, Operation::SearchPlans, &case).is_err());
        assert!(found, "{searcher:?} gets past 2,000 cases");
    }
}

fn each_wrong_merge_is_found_out(version: &Version) {
    for merger in Merger::WRONG {
        let fault = Fault::Merges(merger);
        let mut rng = Rng::new(0xfa1a);
        let generated = (0..2_000).map(|_| sound_case(&mut rng, version));
        let mut cases = merges::at_the_edge(version).into_iter().chain(generated);
        let found = cases.any(|case| check(&fault, Operation::Merge, &case).is_err());
        assert!(found, "{merger:?} gets past 2,000 cases");
    }
}

#[track_caller]
fn each_byte_is_compared(operation: Operation, case: &Case, lent: usize) {
    let arena = expected(operation, case).arena;
    assert_eq!(arena.bytes.len(), lent + 2 * Arena::GUARD);
    for at in 0..arena.bytes.len() {
        let found = check(&Fault::StrayByte(at), operation, case);
        assert!(found.is_err(), "byte {at} of {lent} and guards");
    }
}

fn each_byte_of_the_buffers_and_their_guards_is_compared(version: &Version) {
    // A list that fits with bytes to spare, one that does not, a wrong plan.
    for (room, steps) in [(40, &[0, 1][..]), (28, &[0, 1]), (40, &[0])] {
        let case = Case {
            room,
            ..trial::with_plan(version, steps)
        };
        each_byte_is_compared(Operation::WriteList, &case, room);
    }
    // The same of the states of a run.
    for (work, steps) in [(12, &[0, 1][..]), (8, &[0, 1]), (12, &[0])] {
        let case = Case {
            work,
            state: version.bit(1),
            ..trial::with_plan(version, steps)
        };
        each_byte_is_compared(Operation::RelevantFacts, &case, work);
    }
    // And where few of them are kept.
    for (work, steps) in [(60, &[0, 1][..]), (50, &[0, 1]), (60, &[0])] {
        let case = Case {
            sparse_work: work,
            state: version.bit(1),
            ..trial::with_plan(version, steps)
        };
        each_byte_is_compared(Operation::RelevantFactsSparse, &case, work);
    }
    // And those of a merged problem, with the numbers of its four actions beside it.
    for (room, places) in [(70, 6), (62, 6), (70, 3)] {
        let case = Case {
            second: trial::problem(&version.other()),
            block_room: room,
            places,
            ..trial::with_plan(version, &[])
        };
        each_byte_is_compared(Operation::Merge, &case, room);
        for at in 0..places + 2 * Arena::GUARD {
            let found = check(&Fault::StrayPlace(at), Operation::Merge, &case);
            assert!(found.is_err(), "byte {at} of {places} and guards");
        }
    }
}

/// The oracle made into a subject is itself: so it is each fault alone that is
/// found out above.
fn the_oracle_without_a_fault_is_not_found_out(version: &Version) {
    let mut rng = Rng::new(0xfa17);
    for _ in 0..500 {
        let case = sound_case(&mut rng, version);
        for operation in Operation::ALL {
            check(&Oracle, operation, &case).expect("the same twice");
        }
        let rule = Fault::Relevant(Rule::AsWritten);
        check(&rule, Operation::RelevantFacts, &case).expect("the rule is as written");
        let layout = Fault::LaysOut(Layout::AsWritten);
        check(&layout, Operation::RelevantFactsSparse, &case).expect("the layout is as written");
        let search = Fault::Searches(Searcher::AsWritten);
        check(&search, Operation::SearchPlans, &case).expect("the search is as written");
        let merge = Fault::Merges(Merger::AsWritten);
        check(&merge, Operation::Merge, &case).expect("the merge is as written");
    }
    let list = trial::list(version);
    let state = version.number(&[false, true, true]);
    let case = Case {
        list,
        state,
        longest: 2,
        second: trial::problem(version),
        block_room: 63,
        places: 4,
        ..trial::with_plan(version, &[0, 1])
    };
    let answers = Operation::ALL.map(|operation| expected(operation, &case).answer[0]);
    assert_eq!(answers, [1; 10]);
}
