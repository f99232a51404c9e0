//! Runs that reach the goal, and the start facts that they rest on.

use conformance::model::{Action, Effect, Formula, Problem};
use conformance::oracle;
use conformance::trial;
use conformance::version::{Version, VERSION_1};

/// A plan, the states of its run as a mark for each fact, and the facts.
pub struct Relevant {
    pub name: &'static str,
    pub problem: Problem,
    pub steps: &'static [u8],
    pub states: &'static [&'static str],
    pub facts: &'static [u8],
}

/// Always applicable.
fn action<const N: usize>(effects: [Effect; N]) -> Action {
    Action {
        precondition: Formula::always(),
        effects: effects.into(),
    }
}

/// Does nothing, where this is true.
fn needs(precondition: Formula) -> Action {
    Action {
        precondition,
        effects: Vec::new(),
    }
}

fn problem<const N: usize>(facts: u8, goal: Formula, actions: [Action; N]) -> Problem {
    Problem {
        version: VERSION_1,
        facts,
        initial: Formula::always(),
        goal,
        actions: actions.into(),
    }
}

/// Those of a version.
pub fn all(version: &Version) -> Vec<Relevant> {
    let rows = [
        trial_problem(),
        goals(),
        preconditions(),
        set_entries(),
        clear_entries(),
        both_entries(),
        steps_in_turn(),
    ];
    let in_version = |row: Relevant| Relevant {
        problem: Problem {
            version: *version,
            ..row.problem
        },
        ..row
    };
    rows.into_iter().flatten().map(in_version).collect()
}

/// P: action 0 sets 2 if 0 is true, action 1 sets 2 if 1 is.
fn trial_problem() -> Vec<Relevant> {
    let problem = oracle::read_problem(&trial::problem(&VERSION_1)).expect("P is sound");
    let row = |name, states, facts| Relevant {
        name,
        problem: problem.clone(),
        steps: &[0, 1],
        states,
        facts,
    };
    vec![
        // Action 1 sets 2 by fact 1, whatever 2 was, and nothing sets 1.
        row("p-011", &["011", "011", "011"], &[1]),
        row("p-010", &["010", "010", "011"], &[1]),
        row("p-110", &["110", "111", "111"], &[1]),
        // Action 1 does not set 2: so 2 and 1 matter before it. Action 0 sets 2 by
        // fact 0.
        row("p-100", &["100", "101", "101"], &[0, 1]),
        // Nor does action 0.
        row("p-001", &["001", "001", "001"], &[0, 1, 2]),
        Relevant {
            steps: &[],
            ..row("p-empty-plan", &["001"], &[2])
        },
        Relevant {
            steps: &[0],
            ..row("p-action-0", &["110", "111"], &[0])
        },
    ]
}

/// With the empty plan, the facts named in the goal matter.
fn goals() -> Vec<Relevant> {
    let row = |name, goal, state, facts| Relevant {
        name,
        problem: problem(4, goal, []),
        steps: &[],
        states: state,
        facts,
    };
    // One member is enough, and the others are named.
    let alternatives = Formula::any([
        Formula::all([Formula::fact(0), Formula::not(1)]),
        Formula::fact(3),
    ]);
    vec![
        row("goal-always", Formula::always(), &["1010"], &[]),
        row("goal-fact", Formula::fact(2), &["0010"], &[2]),
        row("goal-denial", Formula::not(1), &["1010"], &[1]),
        row("goal-group", alternatives, &["1010"], &[0, 1, 3]),
        row("goal-either", Formula::either(3), &["0000"], &[3]),
    ]
}

fn preconditions() -> Vec<Relevant> {
    let either = Formula::any([Formula::fact(0), Formula::not(1)]);
    let turn = |precondition| Action {
        precondition,
        effects: vec![
            Effect::sets(0, Formula::always()),
            Effect::clears(1, Formula::always()),
        ],
    };
    vec![
        Relevant {
            name: "precondition",
            problem: problem(3, Formula::always(), [needs(either.clone())]),
            steps: &[0],
            states: &["100", "100"],
            facts: &[0, 1],
        },
        // What it brings about makes no difference to what it needs.
        Relevant {
            name: "precondition-of-what-is-set",
            problem: problem(3, Formula::fact(0), [turn(either)]),
            steps: &[0],
            states: &["110", "100"],
            facts: &[0, 1],
        },
        Relevant {
            name: "precondition-of-each-step",
            problem: problem(
                3,
                Formula::always(),
                [needs(Formula::fact(2)), needs(Formula::not(0))],
            ),
            steps: &[1, 0, 0],
            states: &["001", "001", "001", "001"],
            facts: &[0, 2],
        },
    ]
}

/// The goal is fact 0, and one action may set it.
fn set_entries() -> Vec<Relevant> {
    let row = |name, condition: Formula, states, facts| Relevant {
        name,
        problem: problem(4, Formula::fact(0), [action([Effect::sets(0, condition)])]),
        steps: &[0],
        states,
        facts,
    };
    let pair = || Formula::all([Formula::fact(1), Formula::not(2)]);
    let itself = || Formula::any([Formula::fact(0), Formula::fact(1)]);
    vec![
        row("set", pair(), &["0100", "1100"], &[1, 2]),
        row("set-again", pair(), &["1100", "1100"], &[1, 2]),
        row("not-set", pair(), &["1110", "1110"], &[0, 1, 2]),
        row("set-always", Formula::always(), &["0000", "1000"], &[]),
        row("set-never", Formula::never(), &["1000", "1000"], &[0]),
        row("set-by-itself", itself(), &["1000", "1000"], &[0, 1]),
        row("set-with-itself", itself(), &["0100", "1100"], &[0, 1]),
        // The condition is read in the state before the step.
        Relevant {
            problem: problem(
                4,
                Formula::fact(0),
                [action([
                    Effect::sets(0, Formula::fact(1)),
                    Effect::sets(1, Formula::always()),
                ])],
            ),
            ..row("not-yet-set", pair(), &["1000", "1100"], &[0, 1])
        },
        // Nobody asks for what it may set.
        Relevant {
            problem: problem(
                4,
                Formula::fact(3),
                [action([Effect::sets(0, Formula::fact(1))])],
            ),
            ..row("set-for-nobody", pair(), &["0101", "1101"], &[3])
        },
    ]
}

/// The goal is the denial of fact 0, and one action may clear it. That keeps the
/// fact in the set, even where it was cleared.
fn clear_entries() -> Vec<Relevant> {
    let row = |name, condition, states, facts| Relevant {
        name,
        problem: problem(3, Formula::not(0), [action([Effect::clears(0, condition)])]),
        steps: &[0],
        states,
        facts,
    };
    vec![
        row("cleared", Formula::fact(1), &["110", "010"], &[0, 1]),
        row("not-cleared", Formula::fact(1), &["000", "000"], &[0, 1]),
        row("cleared-always", Formula::always(), &["100", "000"], &[0]),
    ]
}

/// Fact 0 is set if 1 is true, and cleared if 2 is: were both so, it would block.
fn both_entries() -> Vec<Relevant> {
    let both = |set, clear| action([Effect::sets(0, set), Effect::clears(0, clear)]);
    let row = |name, goal, states, facts| Relevant {
        name,
        problem: problem(4, goal, [both(Formula::fact(1), Formula::fact(2))]),
        steps: &[0],
        states,
        facts,
    };
    let goal = Formula::fact;
    let not = Formula::not;
    vec![
        row("both-set", goal(0), &["0100", "1100"], &[1, 2]),
        row("both-neither", goal(0), &["1000", "1000"], &[0, 1, 2]),
        row("both-cleared", not(0), &["1010", "0010"], &[0, 1, 2]),
        row("both-for-nobody", goal(3), &["0101", "1101"], &[1, 2, 3]),
        // An entry that never holds is an entry.
        Relevant {
            problem: problem(4, goal(3), [both(Formula::never(), Formula::fact(1))]),
            ..row("both-but-never-set", not(0), &["0001", "0001"], &[1, 3])
        },
        // A fact takes the value of another.
        Relevant {
            problem: problem(4, goal(0), [both(goal(1), not(1))]),
            ..row("copied-yes", goal(0), &["0100", "1100"], &[1])
        },
        Relevant {
            problem: problem(4, not(0), [both(goal(1), not(1))]),
            ..row("copied-no", goal(0), &["1000", "0000"], &[0, 1])
        },
    ]
}

fn steps_in_turn() -> Vec<Relevant> {
    let sets = |fact, condition| action([Effect::sets(fact, condition)]);
    let goal = Formula::fact;
    let always = Formula::always;
    vec![
        Relevant {
            name: "handed-on",
            problem: problem(3, goal(2), [sets(1, goal(0)), sets(2, goal(1))]),
            steps: &[0, 1],
            states: &["100", "110", "111"],
            facts: &[0],
        },
        Relevant {
            name: "not-handed-on",
            problem: problem(3, goal(2), [sets(1, goal(0)), sets(2, goal(1))]),
            steps: &[1, 0],
            states: &["101", "101", "111"],
            facts: &[1, 2],
        },
        // The last step sets what the first one looked at 1 for.
        Relevant {
            name: "overwritten",
            problem: problem(2, goal(0), [sets(0, goal(1)), sets(0, always())]),
            steps: &[0, 1],
            states: &["01", "11", "11"],
            facts: &[],
        },
        Relevant {
            name: "not-yet-overwritten",
            problem: problem(2, goal(0), [sets(0, goal(1)), sets(0, always())]),
            steps: &[1, 0],
            states: &["00", "10", "10"],
            facts: &[1],
        },
        // The first step sets what the second one needs.
        Relevant {
            name: "provided",
            problem: problem(2, always(), [sets(1, always()), needs(goal(1))]),
            steps: &[0, 1],
            states: &["00", "01", "01"],
            facts: &[],
        },
        Relevant {
            name: "provided-too-late",
            problem: problem(2, always(), [sets(1, always()), needs(goal(1))]),
            steps: &[1, 0],
            states: &["01", "01", "01"],
            facts: &[1],
        },
        // Set by the first of three times; then what sets it stays in the set.
        Relevant {
            name: "three-times",
            problem: problem(2, goal(0), [sets(0, goal(1))]),
            steps: &[0, 0, 0],
            states: &["01", "11", "11", "11"],
            facts: &[1],
        },
    ]
}
