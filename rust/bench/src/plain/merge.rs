//! Two halls as one problem, with the first hall's actions first and all in their
//! order. What stands in the blocks is copied, and then the second hall's facts are
//! moved up in place.

use std::mem;
use std::slice::{Iter, IterMut};

use super::read::{refuse, Refusal, Task, ALL, ANY};
use super::relevance::split;

const VERSION: u8 = 2;
const HEADER: usize = 5;
const MOST_FACTS: u8 = 64;
const MOST_ACTIONS: u8 = 64;
const MOST_BYTES: usize = 32_768;
const MOST_FORMULA_BYTES: usize = 1024;
const MOST_MEMBERS: usize = 255;
const DEEPEST: u8 = 8;

/// The lengths of the block that was written to `out`, and of the table of the
/// actions' new numbers.
pub fn merge(
    first: &[u8],
    second: &[u8],
    out: &mut [u8],
    table: &mut [u8],
) -> Result<(usize, usize), Refusal> {
    let halls = [Task::of_problem(first)?, Task::of_problem(second)?];
    let merged = Merged::of(&halls)?;
    let count = usize::from(merged.count);
    let (Some(out), Some(table)) = (out.get_mut(..merged.length), table.get_mut(..count)) else {
        return refuse(86, 0);
    };
    merged.put(out);
    for (number, place) in (0..).zip(table) {
        *place = number;
    }
    Ok((merged.length, count))
}

/// What the merged problem is made of, within all limits.
struct Merged<'a> {
    halls: &'a [Task<'a>; 2],
    facts: u8,
    count: u8,
    initial: Both<'a>,
    goal: Both<'a>,
    length: usize,
}

impl<'a> Merged<'a> {
    fn of(halls: &'a [Task<'a>; 2]) -> Result<Merged<'a>, Refusal> {
        let [first, second] = halls;
        let facts = first.facts + second.facts;
        if facts > MOST_FACTS {
            return refuse(82, 0);
        }
        let count = first.count + second.count;
        if count > MOST_ACTIONS {
            return refuse(83, 0);
        }
        let initial = Both::of(
            formula(first, first.initial),
            formula(second, second.initial),
        );
        let goal = Both::of(formula(first, first.goal), formula(second, second.goal));
        if initial.is_over() || goal.is_over() {
            return refuse(84, 0);
        }
        let formulas = 2 + initial.length() + 2 + goal.length();
        let length = HEADER + 2 + formulas + actions(first).len() + actions(second).len();
        if length > MOST_BYTES {
            return refuse(85, 0);
        }
        Ok(Merged {
            halls,
            facts,
            count,
            initial,
            goal,
            length,
        })
    }

    /// Fills a buffer of its length.
    fn put(&self, out: &mut [u8]) {
        let [first, second] = self.halls;
        let body = (self.length - HEADER) as u32;
        let mut left = out;
        put(&mut left, &[VERSION]);
        put(&mut left, &body.to_be_bytes());
        put(&mut left, &[self.facts, self.count]);
        self.initial.put(&mut left, first.facts);
        self.goal.put(&mut left, first.facts);
        put(&mut left, actions(first));
        let moved = put(&mut left, actions(second));
        move_actions(moved, second.count, first.facts);
    }
}

/// The "all" of a formula of each hall.
struct Both<'a> {
    first: Members<'a>,
    second: Members<'a>,
}

impl<'a> Both<'a> {
    fn of(first: &'a [u8], second: &'a [u8]) -> Both<'a> {
        let [first, second] = [first, second].map(Members::of);
        Both { first, second }
    }

    fn length(&self) -> usize {
        2 + self.first.bytes.len() + self.second.bytes.len()
    }

    fn count(&self) -> usize {
        self.first.count + self.second.count
    }

    fn is_over(&self) -> bool {
        self.length() > MOST_FORMULA_BYTES
            || self.count() > MOST_MEMBERS
            || self.first.are_too_deep()
            || self.second.are_too_deep()
    }

    /// Puts it with its length, the second hall's facts moved up.
    fn put(&self, left: &mut &mut [u8], by: u8) {
        put(left, &(self.length() as u16).to_be_bytes());
        put(left, &[ALL, self.count() as u8]);
        put(left, self.first.bytes);
        move_all(&mut put(left, self.second.bytes).iter_mut(), by);
    }
}

/// What a formula brings to an "all": the members that it has, or itself.
struct Members<'a> {
    count: usize,
    bytes: &'a [u8],
}

impl<'a> Members<'a> {
    fn of(formula: &'a [u8]) -> Members<'a> {
        match formula {
            [ALL, count, bytes @ ..] => Members {
                count: usize::from(*count),
                bytes,
            },
            bytes => Members { count: 1, bytes },
        }
    }

    /// Whether a group would nest too deep. Members of an "all" were in one before; an
    /// "any" comes into one more.
    fn are_too_deep(&self) -> bool {
        match self.bytes {
            [ANY, count, members @ ..] if self.count == 1 => {
                !is_flat(*count, members) && is_deeper(&mut self.bytes.iter(), 1, DEEPEST - 1)
            }
            _ => false,
        }
    }
}

/// Whether a group has literals alone: then a member is a byte.
fn is_flat(count: u8, members: &[u8]) -> bool {
    usize::from(count) == members.len()
}

/// Whether so many formulas have groups more than so many deep. They are passed, or
/// those before the first such group.
fn is_deeper(bytes: &mut Iter<u8>, count: u8, deep: u8) -> bool {
    for _ in 0..count {
        let Some(&(ALL | ANY)) = bytes.next() else {
            continue;
        };
        let count = bytes.next().copied().unwrap_or(0);
        if deep == 0 || is_deeper(bytes, count, deep - 1) {
            return true;
        }
    }
    false
}

/// The formula whose length field stands there.
fn formula<'a>(task: &Task<'a>, at: usize) -> &'a [u8] {
    split(&task.bytes[at..]).0
}

/// The bytes of all actions.
fn actions<'a>(task: &Task<'a>) -> &'a [u8] {
    match task.count {
        0 => &[],
        _ => &task.bytes[task.actions[0]..],
    }
}

/// Copies bytes to the front of what is left, and is where they went.
fn put<'a>(left: &mut &'a mut [u8], bytes: &[u8]) -> &'a mut [u8] {
    let (front, rest) = mem::take(left).split_at_mut(bytes.len());
    front.copy_from_slice(bytes);
    *left = rest;
    front
}

/// Moves up the facts of so many actions.
fn move_actions(mut left: &mut [u8], count: u8, by: u8) {
    for _ in 0..count {
        move_formula(&mut left, by);
        let effects = take(&mut left, 1)[0];
        for _ in 0..effects {
            take(&mut left, 1)[0] += by;
            move_formula(&mut left, by);
        }
    }
}

/// Moves up the facts of the formula whose length field comes first, and passes it.
fn move_formula(left: &mut &mut [u8], by: u8) {
    let length = take(left, 2);
    let length = u16::from_be_bytes([length[0], length[1]]);
    // Most are one literal, or a group of literals alone.
    match take(left, length.into()) {
        [literal] => *literal += by,
        [_, count, members @ ..] if is_flat(*count, members) => {
            for literal in members {
                *literal += by;
            }
        }
        formula => move_all(&mut formula.iter_mut(), by),
    }
}

fn take<'a>(left: &mut &'a mut [u8], count: usize) -> &'a mut [u8] {
    let (front, rest) = mem::take(left).split_at_mut(count);
    *left = rest;
    front
}

/// Moves up the facts of formulas without lengths: each byte is a literal, or a mark
/// that its count follows.
fn move_all(bytes: &mut IterMut<u8>, by: u8) {
    while let Some(byte) = bytes.next() {
        if *byte < ALL {
            *byte += by;
        } else {
            bytes.next();
        }
    }
}
