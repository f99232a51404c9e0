//! Carriages in a store after a stoppage.

use super::{names, Example, Start, Trial};
use crate::encode;
use crate::families::store::Store;

const STORE: Store = Store {
    carriages: 3,
    aisles: 3,
};

pub fn example() -> Example {
    let problem = encode::problem(&STORE.problem());
    let plan = STORE.plan();
    let short = &plan[..plan.len() - 1];
    let mut loaded = plan.clone();
    loaded.retain(|step| *step != STORE.unload(2));
    Example {
        folder: "store",
        about: ABOUT.into(),
        trials: vec![
            Trial {
                start: Some(Start {
                    state: 0b001_001_100_111 << 36,
                    story: RESTS_ON,
                }),
                ..Trial::right(
                    &problem,
                    &plan,
                    "Unload all, then carriage 0 down twice, carriage 1 down twice and up once,\n\
                     carriage 2 up twice. `plan` is right, wherever the carriages were.",
                )
            },
            Trial::wrong(
                &problem,
                short,
                "`wrong-plan` lacks the last move. If carriage 2 was in aisle 0, it comes no\n\
                 further than aisle 1.",
            ),
            Trial {
                plan: ("blocked-plan", encode::plan(&loaded)),
                output: "blocked-output",
                ..Trial::right(
                    &problem,
                    &[],
                    "`blocked-plan` does not unload carriage 2. If that was loaded, its first move\n\
                     is not applicable.",
                )
            },
        ],
        names: vec![("names", names::of_store(STORE))],
        search: None,
        merging: None,
    }
}

const RESTS_ON: &str = "\
Say that carriages 0 and 1 were in aisle 2, carriage 2 in aisle 0, and all were
loaded: state 001001100111. Its run rests on FACTS (the
operation `relevant_facts`): from any other state that agrees with it on these,
`plan` reaches the goal too. The other places were set on the way. The loads
count though the plan clears them: only a set condition that was true takes a
fact out.";

const ABOUT: &str = "\
# Store

Three carriages in a store of three aisles after a stoppage. Each is in one of
the aisles, nobody knows in which, and nobody knows which carriages are loaded.
Carriage c must end in aisle c. An aisle has room for all of them.

Facts, 12 in all:

- 3c + a: carriage c is in aisle a. At the start, exactly one of the three is
  true for each carriage
- 9 + c: carriage c is loaded. They come last, so that they stay unknown: a
  right plan unloads without looking

Actions, 9 in all:

- 0, 1, 2: carriage 0, 1, 2 moves one aisle down; in aisle 0 it stays
- 3, 4, 5: carriage 0, 1, 2 moves one aisle up; in aisle 2 it stays
- 6, 7, 8: carriage 0, 1, 2 is unloaded

A move is applicable only where its carriage is not loaded. It has a set and a
clear entry for aisle 1: set where the aisle that it comes from is true, cleared
where that is not. While that is unknown, the two read unknown together, and no
case carries. It costs no line here: for other reasons every case that carries
fixes those aisles.
";
