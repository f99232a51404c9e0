//! A store that needs more facts than version 1 has.

use super::{names, Example, Trial};
use crate::encode;
use crate::families::store::Store;

const STORE: Store = Store {
    carriages: 19,
    aisles: 2,
};

pub fn example() -> Example {
    let problem = encode::problem(&STORE.problem_with_one_away());
    let plan = STORE.plan();
    let short = &plan[..plan.len() - 1];
    Example {
        folder: "large-store",
        about: ABOUT.into(),
        trials: vec![
            Trial::right(
                &problem,
                &plan,
                "Unload all, then move carriages 0, 2, .., 18 down and 1, 3, .., 17 up, in the order\n\
                 of their numbers. `plan` is right, whichever carriage was away, if any was.",
            ),
            Trial::wrong(
                &problem,
                short,
                "`wrong-plan` lacks the last move. If carriage 18 was the one away, it stays in\n\
                 aisle 1.",
            ),
        ],
        names: vec![("names", names::of_store(STORE))],
        search: None,
        merging: None,
    }
}

const ABOUT: &str = "\
# Large store

Nineteen carriages in a store of two aisles after a stoppage. Carriage c belongs
in aisle 0 if c is even, and in aisle 1 if it is odd. All are where they belong,
but for one at most, which was on its way: nobody knows which one, and nobody
knows which carriages are loaded. An aisle has room for all of them.

Facts, 57 in all, so the problem is of version 2:

- 2c + a: carriage c is in aisle a. At the start, exactly one of the two is true
  for each carriage, and of any two carriages one is where it belongs
- 38 + c: carriage c is loaded. They come last, so that they stay unknown: a right
  plan unloads without looking

Actions, 57 in all:

- 0 to 18: carriage 0 to 18 moves down, to aisle 0
- 19 to 37: carriage 0 to 18 moves up, to aisle 1
- 38 to 56: carriage 0 to 18 is unloaded

A move is applicable only where its carriage is not loaded.
";
