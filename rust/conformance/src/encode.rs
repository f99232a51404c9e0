//! Trees to blocks. Nothing is checked, so that unsound blocks can be made too.

use crate::model::{Action, Formula, Kind, Line, Literal, Problem};
use crate::version::{Version, DENIAL, HEADER, PLAN_VERSION};

/// A block around a body: version, length, body.
pub fn block(version: &Version, body: &[u8]) -> Vec<u8> {
    let mut bytes = vec![version.byte];
    bytes.extend((body.len() as u32).to_be_bytes());
    bytes.extend(body);
    bytes
}

/// Makes the length field agree with the bytes that follow, where there is one.
pub fn mend(block: &mut [u8]) {
    if block.len() >= HEADER {
        let length = (block.len() - HEADER) as u32;
        block[1..HEADER].copy_from_slice(&length.to_be_bytes());
    }
}

pub fn literal(literal: Literal) -> u8 {
    literal.fact + if literal.denied { DENIAL } else { 0 }
}

fn put_bare(bytes: &mut Vec<u8>, formula: &Formula) {
    match formula {
        Formula::Literal(l) => bytes.push(literal(*l)),
        Formula::Group(kind, members) => {
            let mark = match kind {
                Kind::All => 0x80,
                Kind::Any => 0x81,
            };
            bytes.extend([mark, members.len() as u8]);
            for member in members {
                put_bare(bytes, member);
            }
        }
    }
}

fn put_formula(bytes: &mut Vec<u8>, formula: &Formula) {
    let start = bytes.len();
    bytes.extend([0, 0]);
    put_bare(bytes, formula);
    let length = (bytes.len() - start - 2) as u16;
    bytes[start..start + 2].copy_from_slice(&length.to_be_bytes());
}

fn put_action(bytes: &mut Vec<u8>, action: &Action) {
    put_formula(bytes, &action.precondition);
    bytes.push(action.effects.len() as u8);
    for effect in &action.effects {
        bytes.push(literal(effect.literal));
        put_formula(bytes, &effect.condition);
    }
}

/// A formula's bytes without its length.
pub fn bare(formula: &Formula) -> Vec<u8> {
    let mut bytes = Vec::new();
    put_bare(&mut bytes, formula);
    bytes
}

/// A formula with its length before it.
pub fn formula(formula: &Formula) -> Vec<u8> {
    let mut bytes = Vec::new();
    put_formula(&mut bytes, formula);
    bytes
}

pub fn action(action: &Action) -> Vec<u8> {
    let mut bytes = Vec::new();
    put_action(&mut bytes, action);
    bytes
}

pub fn problem(problem: &Problem) -> Vec<u8> {
    let mut body = vec![problem.facts, problem.actions.len() as u8];
    put_formula(&mut body, &problem.initial);
    put_formula(&mut body, &problem.goal);
    for action in &problem.actions {
        put_action(&mut body, action);
    }
    block(&problem.version, &body)
}

pub fn plan(steps: &[u8]) -> Vec<u8> {
    block(&PLAN_VERSION, steps)
}

pub fn list(version: &Version, lines: &[Line]) -> Vec<u8> {
    let mut body = Vec::new();
    for line in lines {
        body.extend([line.kind, line.k]);
        let value = line.value.to_be_bytes();
        body.extend(&value[value.len() - version.value_bytes()..]);
    }
    block(version, &body)
}
