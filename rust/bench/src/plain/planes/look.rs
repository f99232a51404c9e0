//! A look at the case in each lane.

use super::formula::{split, unmet, value};
use super::table::{Planes, Table};
use super::Lanes;
use crate::plain::read::{Task, DENIAL};
use crate::plain::{Outcome, Part};

/// The effects that an action has at most.
const MOST_EFFECTS: usize = 128;

/// An effect's literal, and its condition in the values before the action.
type Found = (u8, Planes);

/// Room for the effects of an action. What is left in it matters to no other look, so
/// that many plans can share it.
pub struct Room([Found; MOST_EFFECTS]);

impl Room {
    pub const NEW: Room = Room([(0, Planes::NO); MOST_EFFECTS]);
}

/// What looks: the task, the steps of its plan or of another one, and room for the
/// effects of an action.
pub struct Look<'a> {
    task: &'a Task<'a>,
    steps: &'a [u8],
    found: &'a mut [Found; MOST_EFFECTS],
}

/// The step at which no lane was surely applicable any more, and why.
enum Stop {
    Unmet(usize),
    Conflict(usize),
}

impl<'a> Look<'a> {
    pub fn new(task: &'a Task<'a>, steps: &'a [u8], room: &'a mut Room) -> Look<'a> {
        Look {
            task,
            steps,
            found: &mut room.0,
        }
    }

    /// The lanes whose case is closed: it is empty, or it carries.
    pub fn closed(&mut self, case: &mut Table) -> Lanes {
        let (empty, carries) = self.kinds(case);
        empty | carries
    }

    /// The lanes whose case is empty, and those whose case carries.
    pub fn kinds(&mut self, case: &mut Table) -> (Lanes, Lanes) {
        let starts = value(formula(self.task, self.task.initial), case).some;
        (!starts, self.run(case, starts).unwrap_or(0))
    }

    /// Whether the case in every lane holds no start state.
    pub fn is_empty(&self, case: &Table) -> bool {
        value(formula(self.task, self.task.initial), case).some == 0
    }

    /// Whether the case in every lane is not empty, and the plan carries it.
    pub fn carries(&mut self, case: &Table) -> bool {
        if self.is_empty(case) {
            return false;
        }
        let carried = match self.steps {
            // Nothing writes to the case, and a copy of it is 2 KiB.
            [] => value(formula(self.task, self.task.goal), case).sure,
            _ => self.run(&mut case.clone(), !0).unwrap_or(0),
        };
        carried != 0
    }

    /// How the plan ends from a state.
    pub fn outcome(&mut self, state: u64) -> Outcome {
        let mut table = Table::of_state(state);
        match self.run(&mut table, !0) {
            Err(Stop::Unmet(step)) => {
                let (precondition, _) = action(self.task, self.steps[step]);
                let part = Part::Member(unmet(precondition, &table));
                Outcome::Blocked { step, part }
            }
            Err(Stop::Conflict(step)) => {
                let (_, effects) = action(self.task, self.steps[step]);
                let (found, _) = find(effects, &table, self.found);
                let part = Part::Fact(lowest_conflict(found));
                Outcome::Blocked { step, part }
            }
            Ok(0) => Outcome::Missed,
            Ok(_) => Outcome::Reached,
        }
    }

    /// The lanes, of those alive, that surely reach the goal; or where none of
    /// them goes on, with the values before that step left in the table.
    fn run(&mut self, table: &mut Table, mut alive: Lanes) -> Result<Lanes, Stop> {
        let task = self.task;
        for (step, number) in self.steps.iter().enumerate() {
            let (precondition, effects) = action(task, *number);
            alive &= value(precondition, table).sure;
            if alive == 0 {
                return Err(Stop::Unmet(step));
            }
            let (found, conflicts) = find(effects, table, self.found);
            alive &= !conflicts;
            if alive == 0 {
                return Err(Stop::Conflict(step));
            }
            // In the lanes that go on, one of a fact's two conditions is no, and
            // it does not matter which comes first.
            for (literal, condition) in found {
                table.put(*literal, table.get(*literal) | *condition);
            }
        }
        Ok(alive & value(formula(task, task.goal), table).sure)
    }
}

/// The effects, each with its condition in the values before the action, and the
/// lanes in which neither condition of some fact is no. Literals rise, so the sets
/// come first, and those of the clears' facts are met in order.
#[inline(always)]
fn find<'a>(
    effects: &[u8],
    table: &Table,
    room: &'a mut [Found; MOST_EFFECTS],
) -> (&'a [Found], Lanes) {
    let found = &mut room[..usize::from(effects[0])];
    let mut rest = &effects[1..];
    let mut conflicts = 0;
    let mut set = 0;
    for i in 0..found.len() {
        let (condition, next) = split(&rest[1..]);
        let (literal, condition) = (rest[0], value(condition, table));
        found[i] = (literal, condition);
        if let Some(fact) = literal.checked_sub(DENIAL) {
            // It stops at the first clear, if not before.
            while found[set].0 < fact {
                set += 1;
            }
            if found[set].0 == fact {
                conflicts |= found[set].1.some & condition.some;
            }
        }
        rest = next;
    }
    (found, conflicts)
}

/// The lowest fact of which neither condition is no, where there is one.
fn lowest_conflict(found: &[Found]) -> usize {
    let both = |(literal, clear): &Found| {
        let fact = literal.checked_sub(DENIAL)?;
        let (_, set) = found.iter().find(|(literal, _)| *literal == fact)?;
        (set.some & clear.some != 0).then_some(fact)
    };
    found.iter().find_map(both).unwrap_or(0).into()
}

/// The precondition of an action, and its effects from their count on.
fn action<'a>(task: &Task<'a>, number: u8) -> (&'a [u8], &'a [u8]) {
    split(&task.bytes[task.actions[usize::from(number)]..])
}

fn formula<'a>(task: &Task<'a>, at: usize) -> &'a [u8] {
    split(&task.bytes[at..]).0
}
