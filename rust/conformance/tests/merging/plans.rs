//! Plans for both halls at once, beside those of each hall alone: every state is tried.

use std::collections::BTreeMap;

use conformance::answer::{self, Answer};
use conformance::encode;
use conformance::gen::{every_state, right_task, task, Rng};
use conformance::model::{Formula, Problem};
use conformance::oracle::{self, holds, outcome, Outcome, Part, Task};
use conformance::version::{Version, VERSIONS, VERSION_2};
use larkhammock::raw;

use super::Merged;

of_each_version! {
    a_merged_plan_is_right_where_each_hall_s_own_is,
    a_merged_run_ends_as_the_first_of_two_does,
    where_a_hall_has_no_start_state_every_merged_plan_is_right,
}

/// The first words of a judge's answer.
const RIGHT: u64 = 1;
const WRONG: u64 = 2;

/// Two halls with a plan each, and the steps of both by turns in one plan.
pub struct Both {
    pub halls: [Task; 2],
    pub merged: Task,
    /// The hall of each step, 0 or 1.
    turns: Vec<usize>,
}

/// A task of few facts and steps.
pub fn small_task(rng: &mut Rng, version: &Version, facts: u8) -> Task {
    loop {
        let task = match rng.below(3) {
            0 => task(rng, version),
            _ => right_task(rng, version),
        };
        if task.problem.facts <= facts && task.plan.len() <= 8 && task.problem.actions.len() <= 8 {
            return task;
        }
    }
}

impl Both {
    /// None where the halls have no merged problem.
    fn of(rng: &mut Rng, halls: [Task; 2]) -> Option<Both> {
        let merged = Merged::of(&halls[0].problem, &halls[1].problem).ok()?;
        let turns = turns(rng, halls.each_ref().map(|hall| hall.plan.len()));
        let mut steps = halls.each_ref().map(|hall| hall.plan.iter());
        let (first, second) = merged.numbers.split_at(halls[0].problem.actions.len());
        let plan = turns.iter().map(|hall| {
            let step = steps[*hall].next().expect("it has so many steps");
            [first, second][*hall][usize::from(*step)]
        });
        let merged = Task {
            plan: plan.collect(),
            problem: merged.problem,
        };
        Some(Both {
            halls,
            merged,
            turns,
        })
    }

    fn generated(rng: &mut Rng, version: &Version) -> Both {
        loop {
            let other = rng.pick(&VERSIONS);
            let halls = [small_task(rng, version, 4), small_task(rng, &other, 4)];
            if let Some(both) = Both::of(rng, halls) {
                return both;
            }
        }
    }

    /// A merged state's values, by halls.
    fn apart<'a>(&self, state: &'a [bool]) -> [&'a [bool]; 2] {
        let (first, second) = state.split_at(self.halls[0].problem.facts.into());
        [first, second]
    }

    /// Where in the merged plan a hall's step stands.
    fn place(&self, hall: usize, step: u64) -> u64 {
        let mut own = (0..).zip(&self.turns).filter(|(_, turn)| **turn == hall);
        own.nth(step as usize).expect("it has so many steps").0
    }

    /// A part of a hall's action in the merged problem.
    fn part(&self, hall: usize, part: Part) -> Part {
        match part {
            Part::Fact(fact) if hall == 1 => {
                Part::Fact(fact + u64::from(self.halls[0].problem.facts))
            }
            same => same,
        }
    }

    /// How two runs beside one another end: with the hall whose step ended it.
    fn beside(&self, ends: [Outcome; 2]) -> (Outcome, Option<usize>) {
        let blocks = (0..2).filter_map(|hall| match ends[hall] {
            Outcome::Blocked { step, part } => {
                let (step, part) = (self.place(hall, step), self.part(hall, part));
                Some((step, part, hall))
            }
            _ => None,
        });
        match blocks.min_by_key(|(step, ..)| *step) {
            Some((step, part, hall)) => (Outcome::Blocked { step, part }, Some(hall)),
            None if ends == [Outcome::Reached; 2] => (Outcome::Reached, None),
            None => (Outcome::Missed, None),
        }
    }

    /// How each hall's own run ends, from its part of a merged state.
    fn ends(&self, state: &[bool]) -> [Outcome; 2] {
        let [first, second] = self.apart(state);
        [
            outcome(&self.halls[0], first),
            outcome(&self.halls[1], second),
        ]
    }

    /// Whether each hall has a start state.
    fn have_starts(&self) -> [bool; 2] {
        self.halls.each_ref().map(|hall| {
            let Problem { facts, initial, .. } = &hall.problem;
            every_state(*facts).any(|state| holds(initial, &state))
        })
    }
}

/// So many steps of each of two plans, in some order.
fn turns(rng: &mut Rng, mut left: [usize; 2]) -> Vec<usize> {
    let mut turns = Vec::new();
    while left != [0, 0] {
        let hall = usize::from(rng.below(left[0] + left[1]) >= left[0]);
        left[hall] -= 1;
        turns.push(hall);
    }
    turns
}

/// The judge's answer to a task, of the library and of the oracle.
fn judged(task: &Task) -> Answer {
    let (problem, plan) = (encode::problem(&task.problem), encode::plan(&task.plan));
    let answer = raw::judge(&problem, &plan, u64::MAX).word;
    let oracle = oracle::judge(&problem, &plan, u64::MAX);
    assert_eq!(answer, answer::judge(&oracle));
    answer
}

/// How often each kind was met.
#[derive(Default)]
struct Met(BTreeMap<&'static str, u32>);

impl Met {
    fn meet(&mut self, kind: &'static str) {
        *self.0.entry(kind).or_default() += 1;
    }

    #[track_caller]
    fn each_at_least(&self, count: u32, kinds: &[&str]) {
        for kind in kinds {
            let met = self.0.get(kind).copied().unwrap_or(0);
            assert!(met >= count, "{kind}: {met} of {:?}", self.0);
        }
    }
}

fn a_merged_plan_is_right_where_each_hall_s_own_is(version: &Version) {
    let mut rng = Rng::new(0x2a15);
    let mut met = Met::default();
    for _ in 0..3_000 {
        let both = Both::generated(&mut rng, version);
        if both.have_starts() != [true; 2] {
            continue;
        }
        let right = both.halls.each_ref().map(|hall| judged(hall)[0] == RIGHT);
        let answer = judged(&both.merged);
        assert_eq!(answer[0] == RIGHT, right == [true; 2]);
        met.meet(match right {
            [true, true] => "both right",
            [true, false] => "the first right",
            [false, true] => "the second right",
            [false, false] => "both wrong",
        });
        if let [WRONG, _, state, ended @ .., _] = answer {
            let values = VERSION_2.values(state, both.merged.problem.facts);
            let parts = both.apart(&values);
            for (hall, part) in both.halls.iter().zip(parts) {
                assert!(holds(&hall.problem.initial, part));
            }
            let (outcome, _) = both.beside(both.ends(&values));
            assert_eq!(ended, answer::run(&Ok(outcome))[..4]);
        }
    }
    let kinds = [
        "both right",
        "the first right",
        "the second right",
        "both wrong",
    ];
    met.each_at_least(100, &kinds);
}

fn a_merged_run_ends_as_the_first_of_two_does(version: &Version) {
    let mut rng = Rng::new(0x2a16);
    let mut met = Met::default();
    for _ in 0..1_500 {
        let both = Both::generated(&mut rng, version);
        let problem = encode::problem(&both.merged.problem);
        let plan = encode::plan(&both.merged.plan);
        for state in every_state(both.merged.problem.facts) {
            let ends = both.ends(&state);
            let (outcome, hall) = both.beside(ends);
            let answer = raw::run(&problem, &plan, VERSION_2.number(&state)).word;
            assert_eq!(answer, answer::run(&Ok(outcome)));
            met.meet(kind(ends, outcome, hall));
            if let [Outcome::Blocked { .. }, Outcome::Blocked { .. }] = ends {
                met.meet(
                    [
                        "both blocked, the first first",
                        "both blocked, the second first",
                    ][hall.expect("a hall blocks it")],
                );
            }
        }
    }
    let kinds = [
        "blocked by a member of the first",
        "blocked by a fact of the first",
        "blocked by a member of the second",
        "blocked by a fact of the second",
        "both blocked, the first first",
        "both blocked, the second first",
        "both reached",
        "the first reached",
        "the second reached",
        "both missed",
    ];
    met.each_at_least(400, &kinds);
}

fn kind(ends: [Outcome; 2], outcome: Outcome, hall: Option<usize>) -> &'static str {
    match (outcome, hall, ends.map(|end| end == Outcome::Reached)) {
        (Outcome::Blocked { part, .. }, Some(0), _) => match part {
            Part::Member(_) => "blocked by a member of the first",
            Part::Fact(_) => "blocked by a fact of the first",
        },
        (Outcome::Blocked { part, .. }, ..) => match part {
            Part::Member(_) => "blocked by a member of the second",
            Part::Fact(_) => "blocked by a fact of the second",
        },
        (_, _, [true, true]) => "both reached",
        (_, _, [true, false]) => "the first reached",
        (_, _, [false, true]) => "the second reached",
        (_, _, [false, false]) => "both missed",
    }
}

/// No state makes it true.
fn impossible(rng: &mut Rng, facts: u8) -> Formula {
    let fact = rng.below(facts.into()) as u8;
    match rng.below(2) {
        0 => Formula::never(),
        _ => Formula::all([Formula::fact(fact), Formula::not(fact)]),
    }
}

fn where_a_hall_has_no_start_state_every_merged_plan_is_right(version: &Version) {
    let mut rng = Rng::new(0x2a17);
    let mut met = Met::default();
    for round in 0..1_500 {
        let Both { mut halls, .. } = Both::generated(&mut rng, version);
        for (hall, without) in halls.iter_mut().zip([[0, 2], [1, 2]]) {
            if without.contains(&(round % 3)) {
                hall.problem.initial = impossible(&mut rng, hall.problem.facts);
            }
        }
        let Some(both) = Both::of(&mut rng, halls) else {
            continue;
        };
        assert_eq!(judged(&both.merged)[0], RIGHT);
        let wrong = both.halls.iter().any(|hall| judged(hall)[0] == WRONG);
        met.meet(match (both.have_starts(), wrong) {
            ([false, true], true) => "the first without, the second wrong",
            ([true, false], true) => "the second without, the first wrong",
            ([false, true], false) => "the first without",
            ([true, false], false) => "the second without",
            ([false, false], _) => "both without",
            ([true, true], _) => panic!("one is without"),
        });
    }
    let kinds = [
        "the first without, the second wrong",
        "the second without, the first wrong",
        "the first without",
        "the second without",
        "both without",
    ];
    met.each_at_least(50, &kinds);
}
