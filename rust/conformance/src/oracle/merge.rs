//! Two problems, the halls, as one.

use super::{parse, Refusal};
use crate::encode;
use crate::model::{Action, Effect, Formula, Kind, Literal, Problem};
use crate::version::{
    DEEPEST, MOST_ACTIONS, MOST_FORMULA_BYTES, MOST_MEMBERS, MOST_PROBLEM_BYTES, VERSION_2,
};

/// What the front of both buffers holds after a merge.
#[derive(Clone, Debug, PartialEq, Eq)]
pub struct Merged {
    pub block: Vec<u8>,
    /// The new number of each action, the first hall's first.
    pub numbers: Vec<u8>,
}

/// The merged problem, with the first hall's actions in their order and then the second's
/// in theirs.
pub fn merge(first: &Problem, second: &Problem) -> Result<Problem, Refusal> {
    if usize::from(first.facts) + usize::from(second.facts) > VERSION_2.most_facts.into() {
        return Refusal::at(82, 0);
    }
    if first.actions.len() + second.actions.len() > MOST_ACTIONS {
        return Refusal::at(83, 0);
    }
    let merged = halls(first, second);
    if is_over(&merged.initial) || is_over(&merged.goal) {
        return Refusal::at(84, 0);
    }
    if encode::problem(&merged).len() > MOST_PROBLEM_BYTES {
        return Refusal::at(85, 0);
    }
    Ok(merged)
}

/// The same of blocks, for buffers of so many bytes for the block and for the numbers.
pub fn merge_blocks(
    [first, second]: [&[u8]; 2],
    [room, places]: [usize; 2],
) -> Result<Merged, Refusal> {
    let first = parse::problem(first)?;
    let second = parse::problem(second)?;
    let merged = merge(&first, &second)?;
    let (block, count) = (encode::problem(&merged), merged.actions.len());
    if room < block.len() || places < count {
        return Refusal::at(86, 0);
    }
    let numbers = (0..count as u8).collect();
    Ok(Merged { block, numbers })
}

/// Both halls in one, whatever its size.
fn halls(first: &Problem, second: &Problem) -> Problem {
    let by = first.facts;
    let both = |one: &Formula, other: &Formula| {
        let parts = [parts(one.clone()), parts(moved(other, by))];
        Formula::all(parts.concat())
    };
    let moved_actions = second.actions.iter().map(|action| moved_action(action, by));
    Problem {
        version: VERSION_2,
        facts: by + second.facts,
        initial: both(&first.initial, &second.initial),
        goal: both(&first.goal, &second.goal),
        actions: first.actions.iter().cloned().chain(moved_actions).collect(),
    }
}

/// The members that a formula brings into an "all".
fn parts(formula: Formula) -> Vec<Formula> {
    match formula {
        Formula::Group(Kind::All, members) => members,
        other => vec![other],
    }
}

/// The same of other facts, their numbers so much higher.
fn moved(formula: &Formula, by: u8) -> Formula {
    match formula {
        Formula::Literal(literal) => Formula::Literal(moved_literal(*literal, by)),
        Formula::Group(kind, members) => {
            Formula::Group(*kind, members.iter().map(|m| moved(m, by)).collect())
        }
    }
}

fn moved_literal(literal: Literal, by: u8) -> Literal {
    let fact = literal.fact + by;
    Literal { fact, ..literal }
}

fn moved_action(action: &Action, by: u8) -> Action {
    let effects = action.effects.iter().map(|effect| Effect {
        literal: moved_literal(effect.literal, by),
        condition: moved(&effect.condition, by),
    });
    Action {
        precondition: moved(&action.precondition, by),
        effects: effects.collect(),
    }
}

/// Over what a formula may be: its bytes, its members or its depth.
fn is_over(formula: &Formula) -> bool {
    encode::bare(formula).len() > MOST_FORMULA_BYTES
        || parts(formula.clone()).len() > MOST_MEMBERS
        || depth(formula) > DEEPEST
}

/// So many groups stand in one another.
fn depth(formula: &Formula) -> usize {
    match formula {
        Formula::Literal(_) => 0,
        Formula::Group(_, members) => 1 + members.iter().map(depth).max().unwrap_or(0),
    }
}

#[cfg(test)]
mod tests {
    use super::*;
    use crate::families::idle;
    use crate::trial;
    use crate::version::{VERSIONS, VERSION_1};

    #[test]
    fn two_trials_byte_by_byte() {
        let merged = "02 0000003a 06 04 000c 80 04 81 02 00 01 42 81 02 03 04 45 0004 80 02 02 05
                      0002 80 00 01 02 0001 00 0002 80 00 01 02 0001 01
                      0002 80 00 01 05 0001 03 0002 80 00 01 05 0001 04";
        for first in VERSIONS {
            for second in VERSIONS {
                let halls = [trial::problem(&first), trial::problem(&second)];
                let halls = [&halls[0][..], &halls[1]];
                let told = merge_blocks(halls, [63, 4]);
                let block = trial::hex(merged);
                let numbers = vec![0, 1, 2, 3];
                assert_eq!(told, Ok(Merged { block, numbers }));
                for room in [[62, 4], [63, 3], [0, 0]] {
                    assert_eq!(merge_blocks(halls, room), Refusal::at(86, 0));
                }
            }
        }
    }

    #[test]
    fn depth_counts_groups_in_one_another() {
        let any = Formula::any([Formula::fact(0), Formula::always()]);
        assert_eq!(depth(&Formula::fact(0)), 0);
        assert_eq!(depth(&Formula::never()), 1);
        assert_eq!(depth(&any), 2);
        assert_eq!(depth(&Formula::all([Formula::not(0), any])), 3);
    }

    #[test]
    fn facts_and_actions_past_the_most() {
        let of = |first, second| merge(&idle(VERSION_1, first), &idle(VERSION_2, second));
        assert!(of(48, 16).is_ok());
        assert_eq!(of(48, 17), Refusal::at(82, 0));
    }
}
