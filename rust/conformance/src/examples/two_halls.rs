//! Two halls with a plan each, and a plan for both.

use super::{names, Example, Merging, Trial};
use crate::encode;
use crate::families::store::Store;
use crate::model::{Action, Effect, Formula, Problem};
use crate::version::VERSION_2;

/// The first hall.
const STORE: Store = Store {
    carriages: 2,
    aisles: 2,
};

// The second hall: its facts, and its actions.
const EAST: u8 = 0;
const WEST: u8 = 1;
const POINTS_EAST: u8 = 2;
const TURN: u8 = 0;
const TAKE: u8 = 1;

/// A turntable between two tracks.
fn turntable() -> Problem {
    let always_does = |effects| Action {
        precondition: Formula::always(),
        effects,
    };
    Problem {
        version: VERSION_2,
        facts: 3,
        initial: Formula::always(),
        goal: Formula::all([EAST, WEST].map(Formula::not)),
        actions: vec![
            always_does(vec![
                Effect::sets(POINTS_EAST, Formula::fact(EAST)),
                Effect::clears(POINTS_EAST, Formula::fact(WEST)),
            ]),
            always_does(vec![
                Effect::clears(EAST, Formula::fact(POINTS_EAST)),
                Effect::clears(WEST, Formula::not(POINTS_EAST)),
            ]),
        ],
    }
}

pub fn example() -> Example {
    let (store, turntable) = (STORE.problem(), turntable());
    let (of_store, of_turntable) = (STORE.plan(), [TAKE, TURN, TAKE]);
    let mut merging = Merging::new(&store, &turntable);
    merging.story = MERGING
        .replace("NUMBERS", &listed(&merging.table))
        .replace("FIRST", &listed(&merging.of_first(&of_store)))
        .replace("SECOND", &listed(&merging.of_second(&of_turntable)));
    let first = names::of_store(STORE);
    let second = names::names(
        &["east-waits", "west-waits", "points-east"],
        &["turn", "take"],
    );
    let both = merging.names(&first, &second);
    let by_turns = |steps: &[u8]| merging.by_turns(&of_store, steps);
    let problem = &merging.problem;
    Example {
        folder: "two-halls",
        about: ABOUT.into(),
        trials: vec![
            Trial {
                problem: ("first", merging.first.clone()),
                plan: ("first-plan", encode::plan(&of_store)),
                output: "first-output",
                ..Trial::right(&[], &[], FIRST)
            },
            Trial {
                problem: ("second", merging.second.clone()),
                plan: ("second-plan", encode::plan(&of_turntable)),
                output: "second-output",
                ..Trial::right(&[], &[], SECOND)
            },
            Trial::right(problem, &by_turns(&of_turntable), BOTH),
            Trial::wrong(problem, &by_turns(&[TURN, TAKE]), WRONG),
        ],
        names: vec![
            ("first-names", first),
            ("second-names", second),
            ("names", both),
        ],
        search: None,
        merging: Some(merging),
    }
}

/// Numbers with commas between them.
fn listed(numbers: &[u8]) -> String {
    let numbers: Vec<String> = numbers.iter().map(u8::to_string).collect();
    numbers.join(", ")
}

const FIRST: &str = "\
`first-plan` is for the store alone: unload both carriages, move carriage 0 down
and carriage 1 up. It is right, wherever they were.";

const SECOND: &str = "\
`second-plan` is for the turntable alone: take, turn, take. The first step clears
the track that the table points to, so that no more than one carriage waits when
it turns. It is right.";

const BOTH: &str = "\
`plan` is both plans by turns, a step of the first hall and a step of the second,
as long as there is one. Where each hall has a start state, as here, a merged plan
is right exactly if the steps of each hall are a right plan for it by themselves,
and so this one is.";

const WRONG: &str = "\
`wrong-plan` turns before it takes, and the second hall's plan would be wrong
alone. The state named has a carriage on both tracks. The fact that blocks the
step is fact 2 of the second hall, which is fact 8 here.";

const MERGING: &str = "\
`problem` and `table` are the files `first` and `second` merged, by the operation
`merge`. The first hall's actions come first in their old order, and then the
second's in theirs. The table tells their new numbers: its byte i is that of the
first hall's action i, and its byte 6 + i that of the second's. Here they
are NUMBERS. The second hall's facts follow the first's too, so
that its fact f is fact 6 + f.

A plan for a hall becomes steps of a merged plan by the table: `first-plan` is
FIRST there, and `second-plan` is SECOND.";

const ABOUT: &str = "\
# Two halls

A store and a turntable in two halls of one works. Each has its own problem and
its own plan, and there is one problem for both.

The first hall is a small store, in a problem of version 1: two carriages in two
aisles after a stoppage, nobody knows where, nobody knows which are loaded.
Carriage c must end in aisle c. Facts, 6 in all:

- 2c + a: carriage c is in aisle a. At the start, exactly one of the two is true
  for each carriage
- 4 + c: carriage c is loaded

Actions, 6 in all:

- 0, 1: carriage 0, 1 moves down, to aisle 0, if it is not loaded
- 2, 3: carriage 0, 1 moves up, to aisle 1, if it is not loaded
- 4, 5: carriage 0, 1 is unloaded

The second hall is a turntable between two tracks, in a problem of version 2.
Nothing is known of the start, and both tracks must end clear. Facts, 3 in all:

- 0 and 1: a carriage waits on the east track, on the west track
- 2: the table points east; otherwise it points west

Actions, both of them without a precondition:

- 0: the table turns to the track where a carriage waits. It sets fact 2 if fact 0
  is true, and clears it if fact 1 is: where carriages wait on both, it jams, and
  so the action is not applicable
- 1: the table takes the carriage from the track that it points to, if one waits
  there
";
