//! A sorting network.

use super::{Example, Trial};
use crate::encode;
use crate::families::sorting;
use crate::shell::Names;

const CHANNELS: u8 = 8;

/// The comparator that the wrong plan leaves out.
const DROPPED: u8 = 14;

pub fn example() -> Example {
    let problem = encode::problem(&sorting::problem(CHANNELS));
    let whole = sorting::plan(CHANNELS);
    let mut dropped = whole.clone();
    dropped.retain(|comparator| *comparator != DROPPED);
    let table: String = sorting::comparators(CHANNELS)
        .iter()
        .enumerate()
        .map(|(number, (upper, lower))| format!("| {number} | {upper}, {lower} |\n"))
        .collect();
    Example {
        folder: "sorting",
        about: format!("{ABOUT}{table}"),
        trials: vec![
            Trial::right(
                &problem,
                &whole,
                "`plan` is all 19 in turn. It is right: the network sorts.",
            ),
            Trial::wrong(
                &problem,
                &dropped,
                "`wrong-plan` leaves out action 14. The state named is a row that it does not sort.",
            ),
        ],
        names: vec![("names", called())],
        search: None,
        merging: None,
    }
}

/// Two comparators join the channels 1 and 2, so their numbers are in their names.
fn called() -> Names {
    let comparators = sorting::comparators(CHANNELS);
    let actions = comparators.iter().enumerate();
    Names {
        facts: (0..CHANNELS)
            .map(|channel| format!("bit-{channel}"))
            .collect(),
        actions: actions
            .map(|(number, (upper, lower))| format!("{number}:{upper}-{lower}"))
            .collect(),
    }
}

const ABOUT: &str = "\
# Sorting

Batcher's odd-even merge sort for 8 channels, 19 comparators. A network that
sorts every row of bits sorts every row of numbers, so the facts are bits.

Facts: fact i is the bit in channel i. Nothing is known of the start. The goal is
that the bits rise: where fact i is true, fact i + 1 is.

Actions: each compares two channels and leaves the lower bit in the first of
them. It sets the second if the first is true, and clears the first if the second
is false, both as they were before it. No fact has both entries.

| Action | Channels |
|---|---|
";
