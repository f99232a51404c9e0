//! Merges of two problems: the one that is specified, and others that one could take for
//! it.

use conformance::answer::{self, words, Answer};
use conformance::encode;
use conformance::gen::{at_limits, merge_case};
use conformance::harness::{Arena, Case};
use conformance::model::{Action, Effect, Formula, Kind, Literal, Problem};
use conformance::oracle;
use conformance::version::{Version, VERSION_2};

#[derive(Clone, Copy, Debug, PartialEq, Eq)]
pub enum Merger {
    AsWritten,
    /// The second hall's actions come first, as the table says.
    SecondHallFirst,
    /// An action of each hall in turn, as the table says.
    ByTurns,
    /// The last action comes first, as the table says.
    LastFirst,
    /// The first action comes last, which is not its own inverse, as the table says.
    FirstLast,
    SecondNotMoved,
    MovedBySecond,
    DenialsNotMoved,
    PreconditionsNotMoved,
    EffectsNotMoved,
    ConditionsNotMoved,
    SecondPartFirst,
    AllKeptWhole,
    AnyTakenApart,
    AnyOfBoth,
    InitialOfFirst,
    GoalOfFirst,
    VersionOfFirst,
    LastActionForgotten,
    /// The numbers of the second hall come first.
    TableOfSecondFirst,
    /// The numbers of the second hall begin at 0 again.
    TableOfSecondFromZero,
    TableFromOne,
    TableFromTheLast,
    TableNotWritten,
    /// The first action has the number of the second.
    NumberTwice,
    RestCleared,
    TableRestCleared,
    WrittenThoughRefused,
    LengthsTurned,
    SecondsRefusalFirst,
    SecondNotRead,
    /// This refusal is forgotten.
    Accepts(u64),
    /// The most that is allowed is refused with this number.
    RefusesTheMost(u64),
    /// This refusal comes before that of the number below it.
    ComesEarly(u64),
}

use Merger::*;

impl Merger {
    pub const WRONG: [Merger; 44] = [
        SecondHallFirst,
        ByTurns,
        LastFirst,
        FirstLast,
        SecondNotMoved,
        MovedBySecond,
        DenialsNotMoved,
        PreconditionsNotMoved,
        EffectsNotMoved,
        ConditionsNotMoved,
        SecondPartFirst,
        AllKeptWhole,
        AnyTakenApart,
        AnyOfBoth,
        InitialOfFirst,
        GoalOfFirst,
        VersionOfFirst,
        LastActionForgotten,
        TableOfSecondFirst,
        TableOfSecondFromZero,
        TableFromOne,
        TableFromTheLast,
        TableNotWritten,
        NumberTwice,
        RestCleared,
        TableRestCleared,
        WrittenThoughRefused,
        LengthsTurned,
        SecondsRefusalFirst,
        SecondNotRead,
        Accepts(82),
        Accepts(83),
        Accepts(84),
        Accepts(85),
        Accepts(86),
        RefusesTheMost(82),
        RefusesTheMost(83),
        RefusesTheMost(84),
        RefusesTheMost(85),
        RefusesTheMost(86),
        ComesEarly(83),
        ComesEarly(84),
        ComesEarly(85),
        ComesEarly(86),
    ];

    pub fn answer(self, blocks: [&[u8]; 2], [out, table]: [&mut Arena; 2]) -> Answer {
        let (first, second) = match (self, blocks.map(oracle::read_problem)) {
            (_, [Ok(first), Ok(second)]) => (first, second),
            (SecondNotRead, [Ok(_), Err(_)]) => return words(&[1, 7, 0]),
            (SecondsRefusalFirst, [_, second @ Err(_)]) => return answer::read_problem(&second),
            (_, [first @ Err(_), _]) => return answer::read_problem(&first),
            (_, [_, second]) => return answer::read_problem(&second),
        };
        let halls = self.halls(&first, &second);
        let refused = self.refused(&halls, [out.room.len(), table.room.len()]);
        if refused.is_none() || self == WrittenThoughRefused {
            let length = self.write(&halls, first.actions.len(), [out.out(), table.out()]);
            let count = halls.actions.len();
            let lengths = match self {
                LengthsTurned => [count, length],
                _ => [length, count],
            };
            if refused.is_none() {
                return words(&[1, lengths[0] as u64, lengths[1] as u64]);
            }
        }
        words(&[0, refused.expect("it was written otherwise")])
    }

    fn halls(self, first: &Problem, second: &Problem) -> Problem {
        let by = match self {
            SecondNotMoved => 0,
            MovedBySecond => second.facts,
            _ => first.facts,
        };
        let moved = second.actions.iter().map(|a| self.moved_action(a, by));
        let mut actions: Vec<Action> = first.actions.iter().cloned().chain(moved).collect();
        if self == LastActionForgotten {
            actions.pop();
        }
        let parts = |one, other| [self.parts(one), self.parts(&self.moved(other, by))];
        let [mut initial, mut goal] = [
            parts(&first.initial, &second.initial),
            parts(&first.goal, &second.goal),
        ];
        match self {
            SecondPartFirst => initial.reverse(),
            InitialOfFirst => initial[1].clear(),
            GoalOfFirst => goal[1].clear(),
            _ => {}
        }
        let version = match self {
            VersionOfFirst => first.version,
            _ => VERSION_2,
        };
        let kind = match self {
            AnyOfBoth => Kind::Any,
            _ => Kind::All,
        };
        Problem {
            version,
            facts: first.facts + second.facts,
            initial: Formula::Group(kind, initial.concat()),
            goal: Formula::all(goal.concat()),
            actions,
        }
    }

    fn parts(self, formula: &Formula) -> Vec<Formula> {
        match (self, formula) {
            (AllKeptWhole, whole) => vec![whole.clone()],
            (_, Formula::Group(Kind::All, members)) => members.clone(),
            (AnyTakenApart, Formula::Group(_, members)) => members.clone(),
            (_, other) => vec![other.clone()],
        }
    }

    fn moved(self, formula: &Formula, by: u8) -> Formula {
        match formula {
            Formula::Literal(l) => Formula::Literal(self.moved_literal(*l, by)),
            Formula::Group(kind, members) => {
                Formula::Group(*kind, members.iter().map(|m| self.moved(m, by)).collect())
            }
        }
    }

    fn moved_literal(self, literal: Literal, by: u8) -> Literal {
        match (self, literal.denied) {
            (DenialsNotMoved, true) => literal,
            (_, denied) => Literal {
                fact: literal.fact + by,
                denied,
            },
        }
    }

    fn moved_action(self, action: &Action, by: u8) -> Action {
        let unless = |fault: Merger| if self == fault { 0 } else { by };
        let effects = action.effects.iter().map(|effect| Effect {
            literal: self.moved_literal(effect.literal, unless(EffectsNotMoved)),
            condition: self.moved(&effect.condition, unless(ConditionsNotMoved)),
        });
        Action {
            precondition: self.moved(&action.precondition, unless(PreconditionsNotMoved)),
            effects: effects.collect(),
        }
    }

    /// The first number that it is refused with.
    fn refused(self, halls: &Problem, [room, places]: [usize; 2]) -> Option<u64> {
        let block = encode::problem(halls).len();
        let excess = [&halls.initial, &halls.goal].map(|formula| {
            [
                (encode::bare(formula).len(), 1_024),
                (members(formula), 255),
                (depth(formula), 8),
            ]
        });
        let mut tests = vec![
            (82, vec![(usize::from(halls.facts), 64)]),
            (83, vec![(halls.actions.len(), 64)]),
            (84, excess.as_flattened().to_vec()),
            (85, vec![(block, 32_768)]),
            (86, vec![(block, room), (halls.actions.len(), places)]),
        ];
        if let ComesEarly(number) = self {
            let at = tests.iter().position(|test| test.0 == number);
            let at = at.expect("it is one of them");
            tests.swap(at - 1, at);
        }
        let is_over = |number: u64, (size, most): (usize, usize)| match self {
            RefusesTheMost(strict) if strict == number => size >= most,
            Accepts(slack) if slack == number => false,
            _ => size > most,
        };
        let mut tests = tests.into_iter();
        let (number, _) = tests.find(|(n, sizes)| sizes.iter().any(|size| is_over(*n, *size)))?;
        Some(number)
    }

    /// The old number of each action, of which so many are the first hall's.
    fn order(self, count: usize, first: usize) -> Vec<usize> {
        let first = first.min(count);
        match self {
            SecondHallFirst => (first..count).chain(0..first).collect(),
            ByTurns => by_turns((0..first).collect(), (first..count).collect()),
            LastFirst => (0..count).rev().collect(),
            FirstLast => (1..count).chain([0]).take(count).collect(),
            _ => (0..count).collect(),
        }
    }

    /// The new number of each of these actions.
    fn table(self, order: &[usize], first: usize) -> Vec<u8> {
        let count = order.len();
        let new = |old| order.iter().position(|o| *o == old).expect("it is there");
        let mut numbers: Vec<usize> = match self {
            TableOfSecondFromZero => (0..first).chain(0..count.saturating_sub(first)).collect(),
            TableFromOne => (1..=count).collect(),
            TableFromTheLast => (0..count).rev().collect(),
            TableNotWritten => Vec::new(),
            _ => (0..count).map(new).collect(),
        };
        match self {
            TableOfSecondFirst => numbers.rotate_left(first),
            NumberTwice if count > 1 => numbers[0] = numbers[1],
            _ => {}
        }
        numbers.into_iter().map(|number| number as u8).collect()
    }

    /// What both buffers begin with then; the length of the block.
    fn write(self, halls: &Problem, first: usize, [out, table]: [&mut [u8]; 2]) -> usize {
        let order = self.order(halls.actions.len(), first);
        let block = encode::problem(&Problem {
            actions: order
                .iter()
                .map(|old| halls.actions[*old].clone())
                .collect(),
            ..halls.clone()
        });
        let numbers = self.table(&order, first);
        put(out, &block, self == RestCleared);
        put(table, &numbers, self == TableRestCleared);
        block.len()
    }
}

/// By turns as long as there is one of each.
fn by_turns(first: Vec<usize>, second: Vec<usize>) -> Vec<usize> {
    let turns = 0..first.len().max(second.len());
    let both = turns.flat_map(|turn| first.get(turn).into_iter().chain(second.get(turn)));
    both.copied().collect()
}

/// As many of the bytes as there is room for, and then zeros or what was there.
fn put(buffer: &mut [u8], bytes: &[u8], clears: bool) {
    let count = bytes.len().min(buffer.len());
    let (front, rest) = buffer.split_at_mut(count);
    front.copy_from_slice(&bytes[..count]);
    if clears {
        rest.fill(0);
    }
}

fn members(formula: &Formula) -> usize {
    match formula {
        Formula::Literal(_) => 0,
        Formula::Group(_, members) => members.len(),
    }
}

fn depth(formula: &Formula) -> usize {
    match formula {
        Formula::Literal(_) => 0,
        Formula::Group(_, members) => 1 + members.iter().map(depth).max().unwrap_or(0),
    }
}

/// Merges at each limit and one past it, one limit after the other and the next one too;
/// with a first hall of each version, and with two that are refused.
pub fn at_the_edge(version: &Version) -> Vec<Case> {
    let over = |past: [bool; 5]| {
        let [limits @ .., short] = past;
        let [first, second] = at_limits([*version, version.other()], limits);
        let room = 32_769 - usize::from(short) - usize::from(!limits[3]);
        merge_case(&first, &second, [room, 65])
    };
    let none = over([false; 5]);
    let past = (0..5).flat_map(|at| [vec![at], vec![at, at + 1]]);
    let cases = past.map(|at| over([0, 1, 2, 3, 4].map(|limit| at.contains(&limit))));
    let turned = Case {
        problem: none.second.clone(),
        second: none.problem.clone(),
        ..none.clone()
    };
    let refused = Case {
        problem: vec![version.byte; 4],
        second: vec![version.byte; 3],
        ..none.clone()
    };
    [none, turned, refused].into_iter().chain(cases).collect()
}
