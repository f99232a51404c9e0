//! Problems that more than one operation is tried on.

use conformance::encode;
use conformance::families::of_lines;
use conformance::gen::formula_of_size;
use conformance::model::{Action, Effect, Formula, Kind, Problem};
use conformance::version::Version;

fn idle() -> Action {
    Action {
        precondition: Formula::always(),
        effects: Vec::new(),
    }
}

/// A problem with nothing in it but these counts.
pub fn plain(version: &Version, facts: u8, actions: usize) -> Problem {
    Problem {
        version: *version,
        facts,
        initial: Formula::always(),
        goal: Formula::always(),
        actions: vec![idle(); actions],
    }
}

/// As many facts as there can be, and one action with all the effects that there
/// can be: from any state, all facts become false.
pub fn clearing_all(version: &Version) -> Problem {
    let mut problem = plain(version, version.most_facts, 1);
    let effects = &mut problem.actions[0].effects;
    effects.extend((0..version.most_facts).map(|fact| Effect::sets(fact, Formula::never())));
    effects.extend((0..version.most_facts).map(|fact| Effect::clears(fact, Formula::fact(fact))));
    problem
}

/// Groups in groups, so many deep.
pub fn nested(depth: usize) -> Formula {
    let mut kind = Kind::All;
    (0..depth).fold(Formula::fact(0), |inner, _| {
        kind = kind.other();
        Formula::Group(kind, vec![inner])
    })
}

/// A problem of exactly so many bytes, over 4,000: formulas of the full 1,026
/// bytes, and then one to fit.
pub fn problem_of_size(version: &Version, size: usize) -> Problem {
    let mut problem = plain(version, 1, 1);
    let full = formula_of_size(1_024);
    problem.actions[0].effects = vec![Effect::sets(0, full.clone()), Effect::clears(0, full)];
    loop {
        let left = size - encode::problem(&problem).len();
        // An action is three bytes and its precondition.
        let part = match left {
            0 => return problem,
            _ if left <= 1_027 => left - 3,
            _ if left < 1_100 => 500,
            _ => 1_024,
        };
        problem.actions.push(Action {
            precondition: formula_of_size(part),
            ..idle()
        });
    }
}

/// The longest problem, with a plan of its last action: that one needs fact 0.
pub fn longest(version: &Version) -> (Problem, [u8; 1]) {
    let problem = problem_of_size(version, 32_768);
    let last = problem.actions.len() as u8 - 1;
    (problem, [last])
}

/// The longest plan, of which the last step needs fact 0 and no other step
/// needs anything.
pub fn needs_fact_0_at_255(version: &Version) -> (Problem, [u8; 256]) {
    let mut problem = plain(version, 1, 2);
    problem.actions[1].precondition = Formula::fact(0);
    let mut steps = [0; 256];
    steps[255] = 1;
    (problem, steps)
}

/// As many facts as there can be, of which the goal is the last.
pub fn last_of_all(version: &Version) -> Problem {
    let mut problem = plain(version, version.most_facts, 0);
    problem.goal = Formula::fact(version.most_facts - 1);
    problem
}

/// A goal that is true in every state and can be seen to be only when all the
/// facts are fixed: as many lines as states.
pub fn wide(version: &Version, facts: u8) -> Problem {
    let mut problem = plain(version, facts, 0);
    problem.goal = Formula::all((0..facts).map(Formula::either));
    problem
}

/// For the empty plan: as many lines as a list can have.
pub fn of_most_lines(version: &Version) -> Problem {
    of_lines(*version, 13, version.most_lines as u32)
}

/// For the empty plan: one line more.
pub fn of_a_line_too_many(version: &Version) -> Problem {
    of_lines(*version, 13, version.most_lines as u32 + 1)
}

/// For the empty plan: right after 31 visits with 16 lines.
pub fn right_after_31(version: &Version) -> Problem {
    wide(version, 4)
}

/// For the empty plan: wrong after 6 visits, missed from 0100.
pub fn wrong_after_6(version: &Version) -> Problem {
    let mut problem = plain(version, 4, 0);
    problem.goal = Formula::any([Formula::not(1), Formula::fact(3)]);
    problem
}
