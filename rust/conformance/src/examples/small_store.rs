//! A store so small that every short plan can be tried.

use super::{names, Example, Searching, Trial};
use crate::encode;
use crate::families::store::Store;

const STORE: Store = Store {
    carriages: 2,
    aisles: 2,
};

pub fn example() -> Example {
    let problem = encode::problem(&STORE.problem());
    let search = Searching::new(&problem, &[3, 4], SEARCH);
    let found = search.plan();
    let loaded: Vec<u8> = found
        .iter()
        .copied()
        .filter(|step| *step != STORE.unload(1))
        .collect();
    Example {
        folder: "small-store",
        about: ABOUT.into(),
        trials: vec![
            Trial::right(
                &problem,
                &found,
                "`plan` is the one that the search below finds: unload carriage 0, move it down,\n\
                 unload carriage 1, move it up. It is right, wherever the carriages were.",
            ),
            Trial::wrong(
                &problem,
                &loaded,
                "`wrong-plan` does not unload carriage 1. If that was loaded, its move is not\n\
                 applicable.",
            ),
        ],
        names: vec![("names", names::of_store(STORE))],
        search: Some(search),
        merging: None,
    }
}

const SEARCH: &str = "\
Nobody has to write this plan. The operation `search_plans` tries every plan up
to a length, which is the last argument here, by length and then by step numbers,
and stops at the first that is right. It tells that plan's steps, and the visits
of all plans tried. No plan of up to 3 steps is right.";

const ABOUT: &str = "\
# Small store

Two carriages in a store of two aisles after a stoppage. Each is in one of the
aisles, nobody knows in which, and nobody knows which carriages are loaded.
Carriage c must end in aisle c. An aisle has room for both.

Facts, 6 in all:

- 2c + a: carriage c is in aisle a. At the start, exactly one of the two is true
  for each carriage
- 4 + c: carriage c is loaded

Actions, 6 in all:

- 0, 1: carriage 0, 1 moves down, to aisle 0
- 2, 3: carriage 0, 1 moves up, to aisle 1
- 4, 5: carriage 0, 1 is unloaded

A move is applicable only where its carriage is not loaded.
";
