//! Blocks with something wrong in them, or nothing right.

use super::formulas::formula;
use super::Rng;
use crate::encode;
use crate::model::{Action, Effect, Formula, Kind, Literal, Problem};
use crate::version::{Version, DEEPEST, DENIAL, HEADER};

/// A block with bytes changed, lost or added, and its length mended or not.
/// Now and then it grows past `longest`.
pub fn damaged(rng: &mut Rng, version: &Version, block: &[u8], longest: usize) -> Vec<u8> {
    let mut bytes = block.to_vec();
    for _ in 0..rng.between(1, 2) {
        // Most blocks are short and their beginning says most.
        let reach = if rng.chance(1, 4) { 16 } else { usize::MAX };
        let at = rng.below(bytes.len().clamp(1, reach));
        match rng.below(8) {
            0 if rng.chance(1, 4) => bytes.resize(longest + rng.between(0, 2), rng.byte()),
            0 => bytes.truncate(at),
            1 if !bytes.is_empty() => {
                bytes.remove(at);
            }
            2 => bytes.insert(at.min(bytes.len()), telling(rng, version)),
            3 => bytes.push(telling(rng, version)),
            4 if !bytes.is_empty() => bytes[at] = telling(rng, version),
            5 if !bytes.is_empty() => bytes[at] ^= 1 << rng.below(8),
            6 if !bytes.is_empty() => bytes[at] = bytes[at].wrapping_add(1),
            _ if !bytes.is_empty() => bytes[at] = bytes[at].wrapping_sub(1),
            _ => {}
        }
    }
    if rng.chance(2, 3) {
        encode::mend(&mut bytes);
    }
    bytes
}

/// A byte that means something in some place, more often than not.
fn telling(rng: &mut Rng, version: &Version) -> u8 {
    let (facts, effects) = (version.most_facts, version.most_effects);
    match rng.below(4) {
        0 => rng.pick(&[0x80, 0x81]),
        1 => {
            let edges = [
                [0, 1, 2, 4],
                [facts - 1, facts, DENIAL - 1, DENIAL],
                [DENIAL + 1, effects, effects + 1, DENIAL + facts - 1],
                [DENIAL + facts, 127, 0x82, 255],
            ];
            rng.pick(edges.as_flattened())
        }
        2 => rng.below(9) as u8,
        _ => rng.byte(),
    }
}

/// Bytes that nobody meant: of any length, or with a sound header.
pub fn arbitrary(rng: &mut Rng, version: &Version) -> Vec<u8> {
    let length = match rng.below(20) {
        0 => rng.below(70_000),
        1..=4 => rng.below(8),
        _ => rng.below(80),
    };
    let wild = rng.chance(1, 3);
    let mut bytes: Vec<u8> = (0..length)
        .map(|_| {
            if wild {
                rng.byte()
            } else {
                telling(rng, version)
            }
        })
        .collect();
    if rng.chance(3, 4) && length >= HEADER {
        bytes[0] = version.byte;
        encode::mend(&mut bytes);
    }
    bytes
}

/// A problem block with sound counts and lengths around formulas of bytes that
/// nobody meant.
pub fn scribbled(rng: &mut Rng, version: &Version) -> Vec<u8> {
    let facts = rng.between(1, 8);
    let actions = rng.below(3);
    let mut body = vec![facts as u8, actions as u8];
    let mut scribble = |body: &mut Vec<u8>| {
        let length = rng.between(1, 9);
        body.extend([0, length as u8]);
        let bytes = (0..length).map(|_| match rng.below(8) {
            0..=2 => rng.pick(&[0x80, 0x81]),
            3 => DENIAL + rng.below(facts) as u8,
            4 if rng.chance(1, 4) => telling(rng, version),
            _ => rng.below(facts) as u8,
        });
        body.extend(bytes);
    };
    scribble(&mut body);
    scribble(&mut body);
    for _ in 0..actions {
        scribble(&mut body);
        body.extend([1, 0]);
        scribble(&mut body);
    }
    encode::block(version, &body)
}

/// Puts one fault into a problem that no change of single bytes makes often.
pub fn unsound(rng: &mut Rng, problem: &mut Problem) {
    let Problem { version, facts, .. } = *problem;
    let wrong = wrong_formula(rng, facts);
    match rng.below(6) {
        0 => problem.initial = wrong,
        1 => problem.goal = wrong,
        2 => problem.actions.push(Action {
            precondition: wrong,
            effects: Vec::new(),
        }),
        3 => problem.actions.push(Action {
            precondition: Formula::always(),
            effects: vec![Effect::sets(0, wrong)],
        }),
        4 => {
            // Literals that may be undeclared, equal or falling.
            let effects = (0..rng.between(1, 4)).map(|_| Effect {
                literal: Literal {
                    fact: rng.below(usize::from(facts) + 1) as u8,
                    denied: rng.chance(1, 2),
                },
                condition: Formula::always(),
            });
            problem.actions.push(Action {
                precondition: Formula::always(),
                effects: effects.collect(),
            });
        }
        _ => problem.actions.push(Action {
            precondition: Formula::always(),
            effects: vec![
                Effect::clears(0, Formula::never());
                rng.between(usize::from(version.most_effects) + 1, 255)
            ],
        }),
    }
    // Two kinds of fault in one block: the first met decides.
    if rng.chance(1, 8) {
        problem.facts = rng.pick(&[0, 1, version.most_facts + 1, 255]);
    }
}

fn wrong_formula(rng: &mut Rng, facts: u8) -> Formula {
    let mut inner = formula(rng, facts);
    let mut kind = rng.pick(&[Kind::All, Kind::Any]);
    match rng.below(4) {
        // Groups that go too deep, by one or by many.
        0 | 1 => {
            for _ in 0..rng.between(DEEPEST, DEEPEST + 4) {
                inner = Formula::Group(kind, vec![inner]);
                kind = kind.other();
            }
            inner
        }
        // A group directly in one of its kind.
        2 => {
            for _ in 0..rng.between(1, 10) {
                inner = Formula::Group(kind, vec![Formula::fact(0), inner]);
                if rng.chance(3, 4) {
                    kind = kind.other();
                }
            }
            Formula::Group(kind, vec![Formula::Group(kind, vec![inner])])
        }
        // Facts that nobody declared.
        _ => Formula::any([inner, Formula::fact(facts), Formula::not(facts)]),
    }
}
