//! Which start facts a reached run rests on.

use std::cell::RefCell;
use std::hint::black_box;

use crate::cases::relevant::{self, Relevant};
use crate::rules::Rule;
use crate::safe;
use crate::support::Library;
use crate::timing::ratio;
use conformance::encode;
use conformance::examples;
use conformance::families::store::Store;
use conformance::gen::{right_task, task, Rng};
use conformance::harness::Operation::{RelevantFacts, RelevantFactsSparse};
use conformance::harness::{check, expect, Case};
use conformance::model::Formula;
use conformance::oracle::{after, conditions, conflicts, holds, outcome, states, Outcome, Task};
use conformance::version::{Version, MOST_STEPS};
use larkhammock::raw;

/// The state of so many marks.
fn number(version: &Version, marks: &str) -> u64 {
    let values: Vec<bool> = marks.chars().map(|mark| mark == '1').collect();
    version.number(&values)
}

fn set(version: &Version, facts: &[u8]) -> u64 {
    facts.iter().map(|fact| version.bit(*fact)).sum()
}

of_each_version! {
    worked_out_by_hand,
    every_state_that_agrees_on_the_set_is_reached,
    both_calls_tell_the_same_of_plans_of_any_length,
    a_rule_that_leaves_facts_out_has_a_state_that_is_not_reached,
    twice_the_steps_take_at_most_three_times_as_long,
    few_states_take_at_most_three_times_as_long_as_every_state,
    running_again_takes_more_than_three_times_as_long,
}

fn worked_out_by_hand(version: &Version) {
    for row in relevant::all(version) {
        let Relevant { states, facts, .. } = row;
        // It is shown where the test fails.
        println!("{}", row.name);
        let exact = states.concat().len();
        let case = Case {
            problem: encode::problem(&row.problem),
            plan: encode::plan(row.steps),
            state: number(version, states[0]),
            ..Case::default()
        };
        for work in [exact, exact + 5] {
            let case = Case {
                work,
                ..case.clone()
            };
            expect(&Library, RelevantFacts, &case, &[1, set(version, facts)]);
        }
        let short = Case {
            work: exact - 1,
            ..case.clone()
        };
        expect(&Library, RelevantFacts, &short, &[0, 42, 0]);
        // No plan here has 16 steps: one row is kept, and 16 stand in a stretch.
        let sparse = Case {
            sparse_work: 17 * states[0].len(),
            ..case.clone()
        };
        let named = [1, set(version, facts)];
        expect(&Library, RelevantFactsSparse, &sparse, &named);

        let mut work = vec![7; exact];
        let Case { problem, plan, .. } = &case;
        let start = safe::state(&row.problem, case.state);
        let run = larkhammock::relevant_facts(problem, plan, start, &mut work)
            .expect("the work area is long enough");
        assert!(run.facts.iter().eq(facts.iter().copied().map(u64::from)));
        let marks = |state: &[u8]| -> String { state.iter().map(u8::to_string).collect() };
        assert_eq!(run.states.len(), states.len());
        assert!(run.states.map(marks).eq(states.iter().copied()));
    }
}

/// Every state of the task's facts.
fn every_state(task: &Task) -> impl Iterator<Item = u64> {
    let unused = task.problem.version.width - u32::from(task.problem.facts);
    (0..1u64 << task.problem.facts).map(move |n| n << unused)
}

/// A task whose states can be enumerated.
fn small_task(rng: &mut Rng, version: &Version, round: usize) -> Task {
    loop {
        let task = if round.is_multiple_of(2) {
            right_task(rng, version)
        } else {
            task(rng, version)
        };
        if task.problem.facts <= 10 {
            return task;
        }
    }
}

/// A task with a state from which its plan reaches the goal.
struct Reached {
    task: Task,
    start: Vec<bool>,
}

impl Reached {
    fn number(&self) -> u64 {
        self.task.problem.version.number(&self.start)
    }

    /// The states that agree with the start on these facts.
    fn agreeing(&self, set: u64) -> impl Iterator<Item = u64> {
        let agreed = self.number() & set;
        every_state(&self.task).filter(move |state| state & set == agreed)
    }

    /// Runs every one of them through the library; how many there are.
    fn all_reached_that_agree(&self, set: u64) -> usize {
        let problem = encode::problem(&self.task.problem);
        let plan = encode::plan(&self.task.plan);
        let run = |state| {
            let state = safe::state(&self.task.problem, state);
            let outcome = larkhammock::run(&problem, &plan, state);
            assert_eq!(outcome, Ok(larkhammock::Outcome::Reached), "{state}");
        };
        self.agreeing(set).map(run).count()
    }
}

/// Runs that reach the goal, of generated problems: a few for each.
fn reached_runs(version: &Version, seed: u64, rounds: usize) -> Vec<Reached> {
    let mut rng = Rng::new(seed);
    let mut runs = Vec::new();
    for round in 0..rounds {
        let task = small_task(&mut rng, version, round);
        let states: Vec<u64> = every_state(&task).collect();
        for _ in 0..4 {
            let start = version.values(rng.pick(&states), task.problem.facts);
            if outcome(&task, &start) == Outcome::Reached {
                let task = task.clone();
                runs.push(Reached { task, start });
            }
        }
    }
    runs
}

/// What was met on the way of the runs.
#[derive(Debug, Default)]
struct Met {
    empty: u32,
    full: u32,
    between: u32,
    agreeing: usize,
    set_true: u32,
    set_false: u32,
    no_set_entry: u32,
    both_entries_for_nobody: u32,
}

impl Met {
    /// A set of some of so many facts.
    fn set(&mut self, set: u64, facts: u8) {
        match set.count_ones() {
            0 => self.empty += 1,
            n if n == u32::from(facts) => self.full += 1,
            _ => self.between += 1,
        }
    }

    /// What each step asks of each fact: which ones matter after it is what the
    /// rest of the plan rests on.
    fn steps(&mut self, run: &Reached) {
        let Task { problem, plan } = &run.task;
        let states = states(&run.task, &run.start);
        for (step, number) in plan.iter().enumerate() {
            let action = &problem.actions[usize::from(*number)];
            let rest = Task {
                problem: problem.clone(),
                plan: plan[step + 1..].to_vec(),
            };
            let after = Rule::AsWritten.relevant(&rest, &states[step + 1..]);
            for fact in 0..problem.facts {
                let [set, clear] = conditions(action, fact);
                match (after.contains(&fact), set) {
                    (true, Some(set)) if holds(set, &states[step]) => self.set_true += 1,
                    (true, Some(_)) => self.set_false += 1,
                    (true, None) => self.no_set_entry += 1,
                    (false, Some(_)) if clear.is_some() => self.both_entries_for_nobody += 1,
                    (false, _) => {}
                }
            }
        }
    }
}

/// "Prove that any other state which agrees on that set is also reached": here
/// every such state is run.
fn every_state_that_agrees_on_the_set_is_reached(version: &Version) {
    let mut met = Met::default();
    for run in reached_runs(version, 0xa93e, 2_000) {
        let case = Case {
            problem: encode::problem(&run.task.problem),
            plan: encode::plan(&run.task.plan),
            state: run.number(),
            work: run.task.work_bytes(),
            ..Case::default()
        };
        let answer = check(&Library, RelevantFacts, &case).expect("as the oracle does");
        assert_eq!(answer[0], 1);
        met.agreeing += run.all_reached_that_agree(answer[1]);
        met.set(answer[1], run.task.problem.facts);
        met.steps(&run);
    }
    let Met {
        empty,
        full,
        between,
        agreeing,
        set_true,
        set_false,
        no_set_entry,
        both_entries_for_nobody,
    } = met;
    let sets = empty.min(full).min(between);
    let steps = set_true.min(set_false).min(no_set_entry);
    let least = sets.min(steps).min(both_entries_for_nobody);
    assert!(least > 200 && agreeing > 50_000, "{met:?}");
}

/// A run of so many steps, each of them taken from the actions that are applicable
/// there, if there is one for each. Its goal is what some facts are at the end.
fn run_of_length(rng: &mut Rng, version: &Version, steps: usize) -> Option<Reached> {
    let Task { mut problem, .. } = task(rng, version);
    let start: Vec<bool> = (0..problem.facts).map(|_| rng.chance(1, 2)).collect();
    let (mut state, mut plan) = (start.clone(), Vec::new());
    for _ in 0..steps {
        let numbered = (0..).zip(&problem.actions);
        let applicable: Vec<u8> = numbered
            .filter(|(_, a)| holds(&a.precondition, &state) && conflicts(a, &state).is_empty())
            .map(|(number, _)| number)
            .collect();
        if applicable.is_empty() {
            return None;
        }
        let number = rng.pick(&applicable);
        state = after(&problem.actions[usize::from(number)], &state);
        plan.push(number);
    }
    let kept = (0..).zip(state).filter(|_| rng.chance(1, 3));
    problem.goal = Formula::all(kept.map(|(fact, value)| match value {
        true => Formula::fact(fact),
        false => Formula::not(fact),
    }));
    let task = Task { problem, plan };
    Some(Reached { task, start })
}

/// Each call in a work area that is long enough, one byte short and longer, and the
/// answers beside each other.
fn both_calls_tell_the_same_of_plans_of_any_length(version: &Version) {
    let mut rng = Rng::new(0xa940);
    for steps in [0, 1, 15, 16, 17, 31, 32, 33, 255, 256] {
        let mut sets = Vec::new();
        while sets.len() < 40 {
            let Some(run) = run_of_length(&mut rng, version, steps) else {
                continue;
            };
            let case = Case {
                problem: encode::problem(&run.task.problem),
                plan: encode::plan(&run.task.plan),
                state: run.number(),
                ..Case::default()
            };
            let told = |more: usize, less: usize| {
                let case = Case {
                    work: run.task.work_bytes() + more - less,
                    sparse_work: run.task.sparse_work_bytes() + more - less,
                    ..case.clone()
                };
                [RelevantFacts, RelevantFactsSparse]
                    .map(|operation| check(&Library, operation, &case).expect("as the oracle does"))
            };
            let [every, few] = told(0, 0);
            assert_eq!(every, few);
            assert_eq!(every[0], 1, "{steps} steps");
            assert_eq!(told(5, 0), [every; 2]);
            assert!(told(0, 1).iter().all(|answer| answer[..2] == [0, 42]));
            sets.push(every[1]);
        }
        sets.sort_unstable();
        sets.dedup();
        assert!(sets.len() > 10, "{steps} steps have {} sets", sets.len());
    }
}

/// What running every state that agrees is to catch, it would: a rule that leaves facts
/// out has a state that agrees on its set and is not reached. The others name too many.
fn a_rule_that_leaves_facts_out_has_a_state_that_is_not_reached(version: &Version) {
    let sound = [
        Rule::AsWritten,
        Rule::SetIsNeverTrue,
        Rule::FactItselfAlwaysKept,
        Rule::ClearSettles,
    ];
    let runs = reached_runs(version, 0xa93f, 2_000);
    for rule in Rule::WRONG.into_iter().chain([Rule::AsWritten]) {
        let found = runs.iter().any(|run| {
            let Reached { task, start } = run;
            let facts: Vec<u8> = rule
                .relevant(task, &states(task, start))
                .into_iter()
                .collect();
            let mut agreeing = run.agreeing(set(version, &facts));
            agreeing.any(|state| {
                let values = version.values(state, task.problem.facts);
                outcome(task, &values) != Outcome::Reached
            })
        });
        assert_eq!(found, !sound.contains(&rule), "{rule:?}");
    }
}

/// What the examples tell of a run, the library does, and it is so.
#[test]
fn the_library_says_the_same_as_the_examples() {
    let trials = examples::all().into_iter().flat_map(|e| e.trials);
    let told = trials.filter_map(|trial| {
        let number = trial.start.as_ref()?.state;
        let (problem, plan) = (&trial.problem.1, &trial.plan.1);
        let task = Task::parse(problem, plan).expect("both are sound");
        let state = safe::state(&task.problem, number);
        let mut work = [0; larkhammock::LONGEST_WORK];
        let run = larkhammock::relevant_facts(problem, plan, state, &mut work);
        let facts = run.expect("it is reached").facts;
        let told = trial.relevant_facts(number);
        assert!(facts.iter().eq(told.into_iter().map(u64::from)));
        let start = task.problem.version.values(number, task.problem.facts);
        let reached = Reached { task, start };
        Some(reached.all_reached_that_agree(facts.state().number()))
    });
    assert_eq!(told.collect::<Vec<_>>(), [64]);
}

/// 48 facts and so many steps, each of them applicable.
fn long_run(version: &Version, steps: usize) -> Reached {
    let store = Store {
        carriages: 12,
        aisles: 3,
    };
    let mut problem = store.problem();
    problem.version = *version;
    problem.goal = Formula::all((0..48).map(Formula::either));
    Reached {
        start: vec![true; 48],
        task: Task {
            problem,
            plan: store.plan().into_iter().cycle().take(steps).collect(),
        },
    }
}

/// One of the two functions of the C interface.
type Call = fn(&[u8], &[u8], u64, &mut [u8]) -> raw::Answer;

/// Tells what a run of so many steps rests on.
fn telling(version: &Version, steps: usize, call: Call) -> impl Fn() {
    let run = long_run(version, steps);
    let problem = encode::problem(&run.task.problem);
    let plan = encode::plan(&run.task.plan);
    let work = RefCell::new([0; larkhammock::LONGEST_WORK]);
    move || {
        let work = &mut *work.borrow_mut();
        let told = call(black_box(&problem), &plan, run.number(), work);
        assert_eq!(black_box(told).word[0], 1);
    }
}

/// Time grows with the steps: each is gone through once in each direction, or twice
/// forward where few states are kept.
fn twice_the_steps_take_at_most_three_times_as_long(version: &Version) {
    for call in [raw::relevant_facts as Call, raw::relevant_facts_sparse] {
        let [long, short] = [MOST_STEPS, MOST_STEPS / 2].map(|n| telling(version, n, call));
        let ratio = ratio(1_000, [&long, &short]);
        assert!(ratio <= 3.0, "{ratio} times as long");
    }
}

/// To run each stretch again is all that it costs to keep few states.
fn few_states_take_at_most_three_times_as_long_as_every_state(version: &Version) {
    let calls = [raw::relevant_facts_sparse as Call, raw::relevant_facts];
    let [few, every] = calls.map(|call| telling(version, MOST_STEPS, call));
    let ratio = ratio(1_000, [&few, &every]);
    assert!(ratio <= 3.0, "{ratio} times as long");
}

/// What these two tests are to catch, they would: to run from the start again for
/// each state, as it is asked for backward, takes four times as long.
fn running_again_takes_more_than_three_times_as_long(version: &Version) {
    let [long, short] = [MOST_STEPS, MOST_STEPS / 2].map(|steps| {
        let Reached { task, start } = long_run(version, steps);
        move || {
            for count in (0..=task.plan.len()).rev() {
                let steps = task.plan[..count].iter();
                let actions = steps.map(|step| &task.problem.actions[usize::from(*step)]);
                black_box(actions.fold(start.clone(), |state, action| after(action, &state)));
            }
        }
    });
    let ratio = ratio(10, [&long, &short]);
    assert!(ratio > 3.0, "{ratio} times as long");
}
