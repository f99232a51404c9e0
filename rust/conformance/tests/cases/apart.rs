//! Right plans whose actions have set and clear entries that no start state makes
//! true both, and the lists that they need.

use conformance::model::{Action, Effect, Formula, Problem};
use conformance::version::{Version, VERSION_1};

/// A problem, a right plan and its list as the desk program prints it.
pub struct Right {
    pub name: &'static str,
    pub problem: Problem,
    pub steps: Vec<u8>,
    pub list: Vec<String>,
}

/// Always applicable.
fn action(effects: Vec<Effect>) -> Action {
    Action {
        precondition: Formula::always(),
        effects,
    }
}

/// Every state is a start, and any end is good.
fn problem(facts: u8, actions: Vec<Action>) -> Problem {
    Problem {
        version: VERSION_1,
        facts,
        initial: Formula::always(),
        goal: Formula::always(),
        actions,
    }
}

/// All actions in turn.
fn right(name: &'static str, problem: Problem, list: &[&str]) -> Right {
    Right {
        name,
        steps: (0..problem.actions.len() as u8).collect(),
        problem,
        list: list.iter().map(|line| line.to_string()).collect(),
    }
}

/// Those of a version.
pub fn all(version: &Version) -> Vec<Right> {
    let small = [one_entry(), unknown(), later_steps(), some_starts()];
    let rows = small.into_iter().flatten().map(|row| Right {
        problem: Problem {
            version: *version,
            ..row.problem
        },
        ..row
    });
    rows.chain([copy_of_the_most_facts(version)]).collect()
}

/// The set and the clear entry of a fact.
fn pair(fact: u8, set: Formula, clear: Formula) -> Vec<Effect> {
    vec![Effect::sets(fact, set), Effect::clears(fact, clear)]
}

/// A fact takes the value of another.
fn copy(from: u8, to: u8) -> Action {
    action(pair(to, Formula::fact(from), Formula::not(from)))
}

/// One entry alone, or one of two that is never true, is no conflict, be the fact
/// true or false before.
fn one_entry() -> Vec<Right> {
    let row = |name, effects, goal| {
        let problem = Problem {
            goal,
            ..problem(2, vec![action(effects)])
        };
        right(name, problem, &["carries ??"])
    };
    let (always, never) = (Formula::always, Formula::never);
    let (fact, not) = (Formula::fact(1), Formula::not(1));
    let set = Effect::sets(1, always());
    let clear = Effect::clears(1, always());
    vec![
        row("set-alone", vec![set], fact.clone()),
        row("clear-alone", vec![clear], not.clone()),
        row("never-cleared", pair(1, always(), never()), fact),
        row("never-set", pair(1, never(), always()), not),
    ]
}

/// A case in which the "all" of both conditions reads unknown is open, and its
/// parts close.
fn unknown() -> Vec<Right> {
    let eight = [
        "carries 000",
        "carries 001",
        "carries 010",
        "carries 011",
        "carries 100",
        "carries 101",
        "carries 110",
        "carries 111",
    ];
    // Of fact 0's two conditions, one is known to be false with fact 1 alone.
    let half = pair(
        0,
        Formula::all([Formula::fact(1), Formula::fact(2)]),
        Formula::all([Formula::fact(1), Formula::not(2)]),
    );
    let halves = [
        "carries 00?",
        "carries 010",
        "carries 011",
        "carries 10?",
        "carries 110",
        "carries 111",
    ];
    vec![
        right(
            "copy",
            problem(2, vec![copy(0, 1)]),
            &["carries 0?", "carries 1?"],
        ),
        right("copy-the-last", problem(3, vec![copy(2, 0)]), &eight),
        right("half", problem(3, vec![action(half)]), &halves),
    ]
}

/// Conditions are read in the case before each step.
fn later_steps() -> Vec<Right> {
    let clear_0 = action(vec![Effect::clears(0, Formula::always())]);
    let set_0_if_1 = action(vec![Effect::sets(0, Formula::fact(1))]);
    let mixed = ["carries 00?", "carries 01?", "carries 1??"];
    vec![
        // Fact 0 is known when it is copied.
        right(
            "known-by-a-step",
            problem(2, vec![clear_0, copy(0, 1)]),
            &["carries ??"],
        ),
        // Fact 0 is unknown when it is copied, though it was known.
        right(
            "unknown-by-a-step",
            problem(3, vec![set_0_if_1, copy(0, 2)]),
            &mixed,
        ),
        // The second step needs no more than the first.
        right(
            "copies",
            problem(3, vec![copy(0, 1), copy(1, 2)]),
            &["carries 0??", "carries 1??"],
        ),
    ]
}

/// What no start state meets does not count.
fn some_starts() -> Vec<Right> {
    let (fact, not) = (Formula::fact, Formula::not);
    // In 11? both are true.
    let conflict = problem(3, vec![action(pair(2, fact(0), fact(1)))]);
    let elsewhere = Problem {
        initial: Formula::any([not(0), not(1)]),
        ..conflict
    };
    let always_set = Problem {
        initial: not(0),
        ..problem(2, vec![action(pair(1, Formula::always(), fact(0)))])
    };
    vec![
        right(
            "elsewhere",
            elsewhere,
            &["carries 0??", "carries 10?", "no-start 11?"],
        ),
        right("set-always", always_set, &["carries 0?", "no-start 1?"]),
    ]
}

/// The last fact but one is copied, and is the last that has to be fixed.
fn copy_of_the_most_facts(version: &Version) -> Right {
    let most = version.most_facts;
    let all = Problem {
        version: *version,
        initial: Formula::all((0..most).map(Formula::fact)),
        ..problem(most, vec![copy(most - 2, most - 1)])
    };
    let fixed = usize::from(most - 1);
    let mut list: Vec<String> = (0..fixed)
        .map(|ones| format!("no-start {}0{}", "1".repeat(ones), "?".repeat(fixed - ones)))
        .collect();
    list.push(format!("carries {}?", "1".repeat(fixed)));
    Right {
        list,
        ..right("copy-of-all", all, &[])
    }
}
