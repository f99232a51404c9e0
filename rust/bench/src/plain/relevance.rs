//! The start facts that a reached run rests on. A state and a set of facts are a
//! word each, in which fact f is bit f.

use std::ops::Range;
use std::slice::Iter;

use super::read::{Refusal, Task, ALL, ANY, DENIAL};

type Facts = u64;

const MOST_ACTIONS: usize = 64;
const MOST_STEPS: usize = 256;

/// One effect, with the facts that its condition names.
struct Entry<'a> {
    literal: u8,
    condition: &'a [u8],
    named: Facts,
}

impl Entry<'_> {
    fn bit(&self) -> Facts {
        1 << (self.literal % DENIAL)
    }
}

/// An action that the plan names, taken apart once.
struct Action<'a> {
    precondition: &'a [u8],
    entries: Range<usize>,
    /// What matters before it whatever matters after it.
    always: Facts,
}

/// What a step was in its run.
#[derive(Clone, Copy)]
struct Step {
    before: Facts,
    set: Facts,
}

const NO_STEP: Step = Step { before: 0, set: 0 };

/// The set as a state number; the states of the run are written to `work`.
pub fn relevant_facts(
    problem: &[u8],
    plan: &[u8],
    state: u64,
    work: &mut [u8],
) -> Result<u64, Refusal> {
    let task = Task::read(problem, plan)?;
    let start = task.version.state(state).map(u64::reverse_bits);
    let Some(start) = start.filter(|start| start & !first(task.facts) == 0) else {
        return refuse(40);
    };
    let mut actions = Actions::new(&task);
    let mut room = [NO_STEP; MOST_STEPS];
    let run = &mut room[..task.steps.len()];
    let Some(end) = actions.run(start, run) else {
        return refuse(41);
    };
    let row = usize::from(task.facts);
    let Some(rows) = work.get_mut(..(run.len() + 1) * row) else {
        return refuse(42);
    };
    let states = run.iter().map(|step| step.before).chain([end]);
    for (row, state) in rows.chunks_exact_mut(row).zip(states) {
        put(row, state);
    }
    Ok(task.version.number(actions.relevant(run).reverse_bits()))
}

fn refuse<T>(number: u8) -> Result<T, Refusal> {
    Err(Refusal { number, place: 0 })
}

/// The first so many facts, of which there is one at least.
fn first(facts: u8) -> Facts {
    Facts::MAX >> (Facts::BITS - u32::from(facts))
}

struct Actions<'a> {
    task: &'a Task<'a>,
    apart: [Option<Action<'a>>; MOST_ACTIONS],
    entries: Vec<Entry<'a>>,
    /// What each fact's set condition names, in the action that is taken apart.
    set_names: [Facts; DENIAL as usize],
}

impl<'a> Actions<'a> {
    fn new(task: &'a Task<'a>) -> Actions<'a> {
        Actions {
            task,
            apart: [const { None }; MOST_ACTIONS],
            entries: Vec::new(),
            set_names: [0; DENIAL as usize],
        }
    }

    /// Takes an action apart, unless that is done.
    fn meet(&mut self, number: u8) {
        if self.apart[usize::from(number)].is_some() {
            return;
        }
        let (precondition, effects) =
            split(&self.task.bytes[self.task.actions[usize::from(number)]..]);
        let first = self.entries.len();
        let mut always = named(precondition);
        let mut set = 0;
        let mut rest = &effects[1..];
        for _ in 0..effects[0] {
            let (condition, next) = split(&rest[1..]);
            let entry = Entry {
                literal: rest[0],
                condition,
                named: named(condition),
            };
            // Literals rise, so that all sets come before the clears.
            let names = &mut self.set_names[usize::from(entry.literal % DENIAL)];
            if entry.literal < DENIAL {
                set |= entry.bit();
                *names = entry.named;
            } else if set & entry.bit() != 0 {
                always |= *names | entry.named;
            }
            self.entries.push(entry);
            rest = next;
        }
        self.apart[usize::from(number)] = Some(Action {
            precondition,
            entries: first..self.entries.len(),
            always,
        });
    }

    fn get(&self, number: u8) -> (&Action<'a>, &[Entry<'a>]) {
        let action = self.apart[usize::from(number)].as_ref();
        let action = action.expect("it was met");
        (action, &self.entries[action.entries.clone()])
    }

    /// The state at the end of a run that reaches the goal, and its steps.
    fn run(&mut self, start: Facts, run: &mut [Step]) -> Option<Facts> {
        let task = self.task;
        let mut state = start;
        for (number, step) in task.steps.iter().zip(run) {
            self.meet(*number);
            let (action, entries) = self.get(*number);
            if !holds(action.precondition, state) {
                return None;
            }
            let (mut set, mut clear) = (0, 0);
            for entry in entries {
                let told = entry.bit() * u64::from(holds(entry.condition, state));
                if entry.literal < DENIAL {
                    set |= told;
                } else {
                    clear |= told;
                }
            }
            if set & clear != 0 {
                return None;
            }
            *step = Step { before: state, set };
            state = set | state & !clear;
        }
        holds(goal(task), state).then_some(state)
    }

    /// What the run rests on, from its end backward.
    fn relevant(&self, run: &[Step]) -> Facts {
        let mut facts = named(goal(self.task));
        for (number, step) in self.task.steps.iter().zip(run).rev() {
            let (action, entries) = self.get(*number);
            let kept = facts & !step.set;
            let mut before = action.always | kept;
            for entry in entries {
                // A clear condition counts only where the fact was not set.
                let of = if entry.literal < DENIAL { facts } else { kept };
                if of & entry.bit() != 0 {
                    before |= entry.named;
                }
            }
            facts = before;
        }
        facts
    }
}

fn goal<'a>(task: &Task<'a>) -> &'a [u8] {
    split(&task.bytes[task.goal..]).0
}

/// The formula whose length field comes first, and what follows it.
pub(super) fn split(bytes: &[u8]) -> (&[u8], &[u8]) {
    let length = usize::from(u16::from_be_bytes([bytes[0], bytes[1]]));
    bytes[2..].split_at(length)
}

/// The facts that a formula names: every byte but a mark and its count.
fn named(formula: &[u8]) -> Facts {
    let mut bytes = formula.iter();
    let mut facts = 0;
    while let Some(byte) = bytes.next() {
        if *byte < ALL {
            facts |= 1 << (byte % DENIAL);
        } else {
            bytes.next();
        }
    }
    facts
}

fn literal(byte: u8, state: Facts) -> bool {
    (state >> (byte % DENIAL) & 1 == 1) != (byte >= DENIAL)
}

/// Most conditions are one literal or an empty group.
#[inline]
fn holds(formula: &[u8], state: Facts) -> bool {
    match formula {
        [byte] => literal(*byte, state),
        [kind, 0] => *kind == ALL,
        [ALL, rest @ ..] => group::<ALL>(&mut rest.iter(), state),
        [_, rest @ ..] => group::<ANY>(&mut rest.iter(), state),
        [] => unreachable!("no formula is empty"),
    }
}

fn group<const KIND: u8>(rest: &mut Iter<u8>, state: Facts) -> bool {
    let mut value = KIND == ALL;
    let count = rest.next().copied().unwrap_or(0);
    for _ in 0..count {
        let Some(byte) = rest.next() else { break };
        let member = match *byte {
            byte if byte < ALL => literal(byte, state),
            _ if KIND == ALL => group::<ANY>(rest, state),
            _ => group::<ALL>(rest, state),
        };
        value = if KIND == ALL {
            value & member
        } else {
            value | member
        };
    }
    value
}

/// Writes a state, a byte a fact.
fn put(row: &mut [u8], mut state: Facts) {
    let mut eights = row.chunks_exact_mut(8);
    for eight in &mut eights {
        eight.copy_from_slice(&spread(state as u8));
        state >>= 8;
    }
    for byte in eights.into_remainder() {
        *byte = (state & 1) as u8;
        state >>= 1;
    }
}

/// The bits of a byte, the lowest first.
fn spread(byte: u8) -> [u8; 8] {
    // Each byte of the product has all the bits, of which it keeps its own.
    let own = (u64::from(byte) * 0x0101_0101_0101_0101) & 0x8040_2010_0804_0201;
    // The top bit of each byte is then whether it kept anything.
    let any = own + 0x7f7f_7f7f_7f7f_7f7f;
    (any >> 7 & 0x0101_0101_0101_0101).to_le_bytes()
}
