//! Sound formulas of many shapes.

use super::Rng;
use crate::model::{Formula, Kind};
use crate::version::{DEEPEST, MOST_FORMULA_BYTES};

pub fn formula(rng: &mut Rng, facts: u8) -> Formula {
    match rng.below(12) {
        0 => empty(rng),
        1..=3 => literal(rng, facts),
        4 => chain(rng, facts),
        5 => clauses(rng, facts),
        _ => {
            let mut budget = rng.between(2, 24);
            grown(rng, facts, DEEPEST, None, &mut budget)
        }
    }
}

pub fn literal(rng: &mut Rng, facts: u8) -> Formula {
    let fact = rng.below(facts.into()) as u8;
    if rng.chance(1, 2) {
        Formula::fact(fact)
    } else {
        Formula::not(fact)
    }
}

fn kind(rng: &mut Rng) -> Kind {
    rng.pick(&[Kind::All, Kind::Any])
}

fn empty(rng: &mut Rng) -> Formula {
    Formula::Group(kind(rng), Vec::new())
}

/// Groups in groups up to the deepest, a few literals beside each.
fn chain(rng: &mut Rng, facts: u8) -> Formula {
    let depth = rng.between(1, DEEPEST);
    let mut kind = kind(rng);
    let mut inner = literal(rng, facts);
    for _ in 0..depth {
        let mut members: Vec<Formula> = (0..rng.below(3)).map(|_| literal(rng, facts)).collect();
        members.insert(rng.below(members.len() + 1), inner);
        inner = Formula::Group(kind, members);
        kind = kind.other();
    }
    inner
}

/// An "all" of "any", or the reverse, as wide as a formula may be or less.
fn clauses(rng: &mut Rng, facts: u8) -> Formula {
    let outer = kind(rng);
    // A clause of four literals, the most it has, is six bytes.
    let widest = (MOST_FORMULA_BYTES - 2) / 6;
    let most = if rng.chance(1, 20) { widest } else { 6 };
    let clauses = (0..rng.between(1, most)).map(|_| {
        let literals = (0..rng.below(5)).map(|_| literal(rng, facts)).collect();
        Formula::Group(outer.other(), literals)
    });
    Formula::Group(outer, clauses.collect())
}

/// A tree of at most `budget` nodes, or a few more.
fn grown(
    rng: &mut Rng,
    facts: u8,
    levels: usize,
    outer: Option<Kind>,
    budget: &mut usize,
) -> Formula {
    *budget = budget.saturating_sub(1);
    if levels == 0 || *budget == 0 || (outer.is_some() && rng.chance(1, 2)) {
        return literal(rng, facts);
    }
    let kind = outer.map_or_else(|| kind(rng), Kind::other);
    let members = (0..rng.below(5))
        .map(|_| grown(rng, facts, levels - 1, Some(kind), budget))
        .collect();
    Formula::Group(kind, members)
}

/// A formula of exactly this many bytes, 1 to 1,024, that says no more than
/// fact 0 does.
pub fn formula_of_size(size: usize) -> Formula {
    if size == 1 {
        return Formula::fact(0);
    }
    let mut left = size - 2;
    let mut members = Vec::new();
    while left > 0 {
        // An empty "any" would be false, so two bytes are two literals.
        let part = if left <= 2 { 1 } else { left.min(257) };
        left -= part;
        members.push(match part {
            1 => Formula::fact(0),
            _ => Formula::any((2..part).map(|_| Formula::fact(0))),
        });
    }
    Formula::all(members)
}
