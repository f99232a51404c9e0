//! The trial problem.

use super::{names, Example, Trial};
use crate::encode;
use crate::model::{Effect, Formula};
use crate::oracle;
use crate::trial;
use crate::version::VERSION_1;

pub fn example() -> Example {
    let problem = trial::problem(&VERSION_1);
    let mut guarded = oracle::read_problem(&problem).expect("P is sound");
    let mut stalling = guarded.clone();
    guarded.actions[0].precondition = Formula::fact(0);
    stalling.actions[0].effects = vec![
        Effect::sets(2, Formula::always()),
        Effect::clears(2, Formula::always()),
    ];
    Example {
        folder: "trial",
        about: ABOUT.into(),
        trials: vec![
            Trial::right(&problem, &[0, 1], "Both actions in turn are right."),
            Trial::wrong(
                &problem,
                &[0],
                "Action 0 alone misses the goal if fact 1 was the true one.",
            ),
            Trial {
                problem: ("guarded-problem", encode::problem(&guarded)),
                output: "guarded-output",
                ..Trial::right(
                    &problem,
                    &[0, 1],
                    "In the guarded problem, action 0 is applicable only where fact 0 is true.\n\
                     The same plan is blocked at its first step.",
                )
            },
            Trial {
                problem: ("stalling-problem", encode::problem(&stalling)),
                output: "stalling-output",
                ..Trial::right(
                    &problem,
                    &[0, 1],
                    "In the stalling problem, action 0 always sets and always clears fact 2, and so\n\
                     is never applicable.",
                )
            },
        ],
        names: vec![("names", names::names(&["left", "right", "done"], &["try-left", "try-right"]))],
        search: None,
        merging: None,
    }
}

const ABOUT: &str = "\
# Trial

At least one of two actions would do, and nobody knows which.

Facts:

- 0 and 1: what is known of the start is that at least one of them is true
- 2: false at the start; the goal

Actions:

- 0: sets fact 2 if fact 0 is true
- 1: sets fact 2 if fact 1 is true
";
