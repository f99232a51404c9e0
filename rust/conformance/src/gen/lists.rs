//! Case lists made from a walk's lines.

use super::Rng;
use crate::model::Line;
use crate::oracle::{closes, Task};
use crate::version::Version;

/// A change to one line of a list, or to two.
#[derive(Clone, Copy, Debug, PartialEq, Eq)]
pub enum Alteration {
    Dropped,
    Doubled,
    Swapped,
    /// One case in two on its next fact, where there is one. Each half claims
    /// what is so of it.
    Split,
    /// A line made to speak of its whole parent case, the one after it dropped.
    Joined,
    /// One field made another that is allowed, or nearly.
    Edited,
    /// One field made anything at all.
    Scrambled,
}

impl Alteration {
    pub const ALL: [Alteration; 7] = [
        Alteration::Dropped,
        Alteration::Doubled,
        Alteration::Swapped,
        Alteration::Split,
        Alteration::Joined,
        Alteration::Edited,
        Alteration::Scrambled,
    ];

    /// Alters the lines, if there are any and one that was picked allows it.
    pub fn apply(self, rng: &mut Rng, task: &Task, lines: &mut Vec<Line>) {
        if lines.is_empty() {
            return;
        }
        let version = &task.problem.version;
        let at = rng.below(lines.len());
        let line = lines[at];
        match self {
            Alteration::Dropped => {
                lines.remove(at);
            }
            Alteration::Doubled => lines.insert(at, line),
            Alteration::Swapped => {
                let other = rng.below(lines.len());
                lines.swap(at, other);
            }
            Alteration::Split if line.k < task.problem.facts => {
                let claimed = |half: Line| Line {
                    kind: closes(task, &version.values(half.value, half.k)).unwrap_or(half.kind),
                    ..half
                };
                lines.splice(at..=at, halves(version, line).map(claimed));
            }
            Alteration::Joined
                if (1..=version.most_facts).contains(&line.k) && at + 1 < lines.len() =>
            {
                lines[at].k -= 1;
                lines[at].value &= !version.bit(line.k - 1);
                lines.remove(at + 1);
            }
            Alteration::Split | Alteration::Joined => {}
            Alteration::Edited => edit(rng, task, &mut lines[at]),
            Alteration::Scrambled => scramble(rng, version, &mut lines[at]),
        }
    }
}

fn edit(rng: &mut Rng, task: &Task, line: &mut Line) {
    let facts = usize::from(task.problem.facts);
    match rng.below(3) {
        0 => line.kind ^= 1,
        1 => line.k = rng.below(facts + 2) as u8,
        _ => line.value ^= task.problem.version.bit(rng.below(facts) as u8),
    }
}

fn scramble(rng: &mut Rng, version: &Version, line: &mut Line) {
    match rng.below(3) {
        0 => line.kind = rng.byte(),
        1 => line.k = rng.byte(),
        _ => line.value = rng.word() >> (u64::BITS - version.width),
    }
}

/// The lines with one or two alterations.
pub fn altered(rng: &mut Rng, task: &Task, lines: &[Line]) -> Vec<Line> {
    let mut lines = lines.to_vec();
    for _ in 0..rng.between(1, 2) {
        rng.pick(&Alteration::ALL).apply(rng, task, &mut lines);
    }
    lines
}

/// The lines with some cases split in two, once or many times: it passes where
/// the lines did.
pub fn refined(rng: &mut Rng, task: &Task, lines: &[Line]) -> Vec<Line> {
    let mut lines = lines.to_vec();
    for _ in 0..rng.between(1, 12) {
        Alteration::Split.apply(rng, task, &mut lines);
    }
    lines
}

/// A cover of all states in which every line is as wide as its claim can be.
/// It is the walk's list, but does not stop at a failing state: there it claims
/// what is not so.
pub fn cover(task: &Task) -> Vec<Line> {
    let version = &task.problem.version;
    let mut done = Vec::new();
    let mut open = vec![whole(1)];
    while let Some(line) = open.pop() {
        match closes(task, &version.values(line.value, line.k)) {
            None if line.k < task.problem.facts => open.extend(halves(version, line).iter().rev()),
            claim => done.push(Line {
                kind: claim.unwrap_or(1),
                ..line
            }),
        }
    }
    done
}

/// Every cover of all states by cases of so many facts, with every claim.
pub fn every_cover(version: &Version, facts: u8) -> Vec<Vec<Line>> {
    fn below(version: &Version, line: Line, facts: u8) -> Vec<Vec<Line>> {
        let mut covers: Vec<Vec<Line>> = [0, 1].map(|kind| vec![Line { kind, ..line }]).into();
        if line.k < facts {
            let [left, right] = halves(version, line).map(|half| below(version, half, facts));
            for left in &left {
                covers.extend(right.iter().map(|right| [&left[..], right].concat()));
            }
        }
        covers
    }
    below(version, whole(0), facts)
}

/// A cover of all states by so many lines that claim to carry, as even as may
/// be.
pub fn even_cover(version: &Version, lines: usize) -> Vec<Line> {
    fn below(version: &Version, lines: usize, line: Line) -> Vec<Line> {
        if lines == 1 {
            return vec![line];
        }
        let [no, yes] = halves(version, line);
        let mut list = below(version, lines.div_ceil(2), no);
        list.extend(below(version, lines / 2, yes));
        list
    }
    below(version, lines, whole(1))
}

/// Lines that say in the other version what these say in this one, as far as it
/// has the facts.
pub fn in_other_version(version: &Version, lines: &[Line]) -> Vec<Line> {
    let other = version.other();
    let facts = version.most_facts.min(other.most_facts);
    let line = |line: &Line| Line {
        value: other.number(&version.values(line.value, facts)),
        ..*line
    };
    lines.iter().map(line).collect()
}

/// One line for all states.
fn whole(kind: u8) -> Line {
    Line {
        kind,
        k: 0,
        value: 0,
    }
}

/// A case in two on its next fact, with the same claim.
fn halves(version: &Version, line: Line) -> [Line; 2] {
    [0, version.bit(line.k)].map(|bit| Line {
        k: line.k + 1,
        value: line.value | bit,
        ..line
    })
}
