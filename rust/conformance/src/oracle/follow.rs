//! Following a list.

use super::{closes, Refusal, Task};
use crate::model::Line;

pub fn follow(task: &Task, lines: &[Line]) -> Result<(), Refusal> {
    let version = &task.problem.version;
    let mut reached = 0;
    for (place, line) in lines.iter().enumerate() {
        if let Some(number) = fault(task, line, reached) {
            return Refusal::at(number, place);
        }
        reached = u128::from(line.value) + version.covered(line.k);
    }
    if reached != version.numbers() {
        return Refusal::at(70, lines.len());
    }
    Ok(())
}

/// The first fault of a line that should begin at `start`.
fn fault(task: &Task, line: &Line, start: u128) -> Option<u64> {
    if line.kind > 1 {
        return Some(65);
    }
    if line.k > task.problem.facts {
        return Some(66);
    }
    let version = &task.problem.version;
    let fixed = version.values(line.value, line.k);
    if version.number(&fixed) != line.value {
        return Some(67);
    }
    if u128::from(line.value) != start {
        return Some(68);
    }
    if closes(task, &fixed) != Some(line.kind) {
        return Some(69);
    }
    None
}
