//! A sorting network. A network that sorts every row of bits sorts every row of
//! numbers, so the facts are bits.

use super::{action, version_for};
use crate::model::{Action, Effect, Formula, Problem};

/// Batcher's odd-even merge sort, each comparator as its two channels.
pub fn comparators(channels: u8) -> Vec<(u8, u8)> {
    let mut network = Vec::new();
    let powers = || (0..8).map(|e| 1u8 << e);
    for merged in powers().take_while(|p| *p < channels) {
        for distance in powers().rev().skip_while(|k| *k > merged) {
            let from = distance % merged;
            for block in (from..channels - distance).step_by(2 * usize::from(distance)) {
                for upper in block..(block + distance).min(channels - distance) {
                    let lower = upper + distance;
                    if upper / 2 / merged == lower / 2 / merged {
                        network.push((upper, lower));
                    }
                }
            }
        }
    }
    network
}

/// Both conditions are read before the action, so one of each is enough.
fn comparator((upper, lower): (u8, u8)) -> Action {
    action(vec![
        Effect::sets(lower, Formula::fact(upper)),
        Effect::clears(upper, Formula::not(lower)),
    ])
}

/// Fact i is the bit in channel i. Nothing is known of the start.
pub fn problem(channels: u8) -> Problem {
    let in_order = |i: u8| Formula::any([Formula::not(i), Formula::fact(i + 1)]);
    Problem {
        version: version_for(channels),
        facts: channels,
        initial: Formula::always(),
        goal: Formula::all((0..channels - 1).map(in_order)),
        actions: comparators(channels).into_iter().map(comparator).collect(),
    }
}

/// Every comparator in turn.
pub fn plan(channels: u8) -> Vec<u8> {
    (0..comparators(channels).len() as u8).collect()
}
