//! Searches among short plans, with the visits of each plan.

use conformance::model::{Action, Effect, Formula, Problem};
use conformance::oracle;
use conformance::trial;
use conformance::version::{Version, VERSION_1};

/// The plans that are tried in turn, each with the visits of its walk: all are
/// wrong, or the last of them is right.
pub struct Searched {
    pub name: &'static str,
    pub problem: Problem,
    pub longest: u64,
    pub walks: &'static [(&'static [u8], u64)],
    pub last_is_right: bool,
}

fn p() -> Problem {
    oracle::read_problem(&trial::problem(&VERSION_1)).expect("P is sound")
}

/// Those of a version.
pub fn all(version: &Version) -> Vec<Searched> {
    let rows = [trial_problem(), variants_of_p(), preconditions()];
    let in_version = |row: Searched| Searched {
        problem: Problem {
            version: *version,
            ..row.problem
        },
        ..row
    };
    rows.into_iter().flatten().map(in_version).collect()
}

/// P: action 0 sets 2 if 0 is true, action 1 sets 2 if 1 is.
fn trial_problem() -> Vec<Searched> {
    // Without action 1 the walk ends at 010, after the root, 0??, 00? and 01?; with
    // it alone 01? carries, and it ends at 100, after 1?? and 10?.
    let walks: &[(&[u8], u64)] = &[(&[], 5), (&[0], 5), (&[1], 7), (&[0, 0], 5), (&[0, 1], 5)];
    let row = |name, longest, tried: usize| Searched {
        name,
        problem: p(),
        longest,
        walks: &walks[..tried],
        last_is_right: tried == 5,
    };
    vec![
        row("p-0", 0, 1),
        row("p-1", 1, 3),
        row("p-2", 2, 5),
        row("p-3", 3, 5),
        row("p-4", 4, 5),
    ]
}

fn variants_of_p() -> Vec<Searched> {
    let mut no_start = p();
    no_start.initial = Formula::never();
    let mut no_goal = p();
    no_goal.goal = Formula::always();
    let at_once = |name, problem, longest| Searched {
        name,
        problem,
        longest,
        walks: &[(&[], 1)],
        last_is_right: true,
    };
    // Action 0 blocks from 010, wherever it stands; action 1 alone misses from 100.
    let mut guarded = p();
    guarded.actions[0].precondition = Formula::fact(0);
    let mut stalling = p();
    stalling.actions[0].effects = vec![
        Effect::sets(2, Formula::always()),
        Effect::clears(2, Formula::always()),
    ];
    let all_wrong = |name, problem| Searched {
        name,
        problem,
        longest: 2,
        walks: &[
            (&[], 5),
            (&[0], 5),
            (&[1], 7),
            (&[0, 0], 5),
            (&[0, 1], 5),
            (&[1, 0], 5),
            (&[1, 1], 7),
        ],
        last_is_right: false,
    };
    // No action at all: the empty plan, whatever the length.
    let mut idle = p();
    idle.actions.clear();
    let mut turned = p();
    turned.actions.swap(0, 1);
    vec![
        at_once("no-start", no_start, 4),
        at_once("no-goal", no_goal.clone(), 0),
        at_once("no-goal-4", no_goal, 4),
        all_wrong("guarded", guarded),
        all_wrong("stalling", stalling),
        Searched {
            name: "no-action",
            problem: idle,
            longest: 4,
            walks: &[(&[], 5)],
            last_is_right: false,
        },
        // What was action 1 comes first, and so does its plan.
        Searched {
            name: "turned",
            problem: turned,
            longest: 2,
            walks: &[(&[], 5), (&[0], 7), (&[1], 5), (&[0, 0], 7), (&[0, 1], 5)],
            last_is_right: true,
        },
    ]
}

/// One carriage: fact 0 says that it is loaded, fact 1 that it is home. Action 0
/// brings it home if it is not loaded, and action 1 unloads it.
fn preconditions() -> Vec<Searched> {
    let home = Action {
        precondition: Formula::not(0),
        effects: vec![Effect::sets(1, Formula::always())],
    };
    let unload = Action {
        precondition: Formula::always(),
        effects: vec![Effect::clears(0, Formula::always())],
    };
    let problem = Problem {
        version: VERSION_1,
        facts: 2,
        initial: Formula::not(1),
        goal: Formula::fact(1),
        actions: vec![home, unload],
    };
    let row = |name, longest, walks, last_is_right| Searched {
        name,
        problem: problem.clone(),
        longest,
        walks,
        last_is_right,
    };
    // To begin with action 0 fails from 10, after the root, 0? and 1?; not to move at
    // all fails from 00, after the root and 0?.
    let unloaded: &[(&[u8], u64)] = &[(&[], 3), (&[0], 4), (&[1], 3)];
    vec![
        row("carriage-0", 0, &unloaded[..1], false),
        row("carriage-1", 1, unloaded, false),
        row(
            "carriage-2",
            2,
            &[
                (&[], 3),
                (&[0], 4),
                (&[1], 3),
                (&[0, 0], 4),
                (&[0, 1], 4),
                (&[1, 0], 1),
            ],
            true,
        ),
    ]
}
