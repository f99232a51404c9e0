//! Three values: one case at a time, and the walk over cases.

use super::Task;
use crate::model::{Action, Formula, Kind, Line};
use crate::version::VERSION_2;

/// No problem has more facts.
const MOST_FACTS: usize = VERSION_2.most_facts as usize;

/// A value that may be partly known: which of yes and no it can still be.
/// Unknown can be both; nothing can be neither.
#[derive(Clone, Copy)]
struct Value {
    yes: bool,
    no: bool,
}

impl Value {
    const YES: Value = Value {
        yes: true,
        no: false,
    };
    const NO: Value = Value {
        yes: false,
        no: true,
    };
    const UNKNOWN: Value = Value {
        yes: true,
        no: true,
    };

    fn of(value: bool) -> Value {
        Value {
            yes: value,
            no: !value,
        }
    }

    fn denied(self) -> Value {
        Value {
            yes: self.no,
            no: self.yes,
        }
    }

    fn and(self, other: Value) -> Value {
        Value {
            yes: self.yes && other.yes,
            no: self.no || other.no,
        }
    }

    fn or(self, other: Value) -> Value {
        self.denied().and(other.denied()).denied()
    }

    fn is_yes(self) -> bool {
        !self.no
    }

    fn is_no(self) -> bool {
        !self.yes
    }
}

fn read(formula: &Formula, case: &[Value]) -> Value {
    match formula {
        Formula::Literal(l) if l.denied => case[usize::from(l.fact)].denied(),
        Formula::Literal(l) => case[usize::from(l.fact)],
        Formula::Group(Kind::All, members) => members
            .iter()
            .fold(Value::YES, |sum, m| sum.and(read(m, case))),
        Formula::Group(Kind::Any, members) => members
            .iter()
            .fold(Value::NO, |sum, m| sum.or(read(m, case))),
    }
}

/// The two conditions of a fact.
#[derive(Clone, Copy)]
struct Conditions {
    set: Value,
    clear: Value,
}

/// The conditions of every fact. One that has no entry never holds.
fn conditions(action: &Action, before: &[Value]) -> [Conditions; MOST_FACTS] {
    let (set, clear) = (Value::NO, Value::NO);
    let mut told = [Conditions { set, clear }; MOST_FACTS];
    for effect in &action.effects {
        let fact = &mut told[usize::from(effect.literal.fact)];
        let entry = if effect.literal.denied {
            &mut fact.clear
        } else {
            &mut fact.set
        };
        *entry = read(&effect.condition, before);
    }
    told
}

/// Makes a case that after an action, if that is surely applicable: its precondition
/// reads yes, and the "all" of each fact's two conditions reads no.
fn take(action: &Action, case: &mut [Value]) -> Option<()> {
    if !read(&action.precondition, case).is_yes() {
        return None;
    }
    let told = conditions(action, case);
    if !told.iter().all(|c| c.set.and(c.clear).is_no()) {
        return None;
    }
    // True where it is set, and where it was true and is not cleared.
    for (value, c) in case.iter_mut().zip(told) {
        *value = c.set.or(value.and(c.clear.denied()));
    }
    Some(())
}

/// The kind of line that closes the case with these facts fixed, if any does.
pub fn closes(task: &Task, fixed: &[bool]) -> Option<u8> {
    let mut values = [Value::UNKNOWN; MOST_FACTS];
    for (value, fixed) in values.iter_mut().zip(fixed) {
        *value = Value::of(*fixed);
    }
    let case = &mut values[..usize::from(task.problem.facts)];
    if read(&task.problem.initial, case).is_no() {
        return Some(0);
    }
    for action in task.steps() {
        take(action, case)?;
    }
    read(&task.problem.goal, case).is_yes().then_some(1)
}

pub enum End {
    /// Every case closed.
    Covered,
    /// This state fails.
    Failing(u64),
    /// The grant did not last.
    Spent,
}

pub struct Walk {
    pub visits: u64,
    /// The closed cases, as far as the walk came.
    pub lines: Vec<Line>,
    pub end: End,
}

/// The walk, as an odometer over the fixed facts: an open case gets one more
/// fact, a closed one moves on to the next case on the right.
pub fn walk(task: &Task, grant: u64) -> Walk {
    let version = &task.problem.version;
    let mut fixed: Vec<bool> = Vec::new();
    let mut visits = 0;
    let mut lines = Vec::new();
    let end = loop {
        if visits == grant {
            break End::Spent;
        }
        visits += 1;
        match closes(task, &fixed) {
            Some(kind) => {
                let k = fixed.len() as u8;
                let value = version.number(&fixed);
                lines.push(Line { kind, k, value });
                while fixed.pop_if(|last| *last).is_some() {}
                match fixed.last_mut() {
                    Some(last) => *last = true,
                    None => break End::Covered,
                }
            }
            None if fixed.len() < usize::from(task.problem.facts) => fixed.push(false),
            None => break End::Failing(version.number(&fixed)),
        }
    };
    Walk { visits, lines, end }
}
