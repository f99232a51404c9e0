//! Plans that are blocked, and the part of the action that is named: a member of
//! its precondition, or a fact that is told to be set and to be cleared.

use conformance::model::{Action, Effect, Formula, Problem};
use conformance::oracle::Part;
use conformance::version::{Version, VERSION_1};

/// A problem with one start state, where the plan is blocked.
pub struct Blocked {
    pub name: &'static str,
    pub problem: Problem,
    pub steps: Vec<u8>,
    pub state: u64,
    /// Of the walk, which goes down to that state.
    pub visits: u64,
    pub step: u64,
    pub part: Part,
}

/// The one start state is 100: the walk looks at ???, 0??, 1??, 10? and 100.
/// Action 0 clears fact 0 and sets fact 1; action 1 is the one that is blocked.
fn blocked(name: &'static str, action: Action, steps: &[u8], step: u64, part: Part) -> Blocked {
    let turn = Action {
        precondition: Formula::always(),
        effects: vec![
            Effect::sets(1, Formula::always()),
            Effect::clears(0, Formula::always()),
        ],
    };
    Blocked {
        name,
        problem: Problem {
            version: VERSION_1,
            facts: 3,
            initial: Formula::all([Formula::fact(0), Formula::not(1), Formula::not(2)]),
            goal: Formula::always(),
            actions: vec![turn, action],
        },
        steps: steps.to_vec(),
        state: VERSION_1.bit(0),
        visits: 5,
        step,
        part,
    }
}

/// Those of a version.
pub fn all(version: &Version) -> Vec<Blocked> {
    let small = [
        no_all(),
        literals(),
        groups(),
        later_steps(),
        conflicts(),
        conflicts_of_conditions(),
        conflicts_and_preconditions(),
        later_conflicts(),
    ];
    let rows = small.into_iter().flatten();
    rows.map(|row| in_version(version, row))
        .chain(conflicts_of_the_most_facts(version))
        .collect()
}

/// The same with the same values of all facts.
fn in_version(version: &Version, row: Blocked) -> Blocked {
    let problem = Problem {
        version: *version,
        ..row.problem
    };
    let values = row.problem.version.values(row.state, problem.facts);
    Blocked {
        problem,
        state: version.number(&values),
        ..row
    }
}

/// True at the start.
fn yes() -> Formula {
    Formula::fact(0)
}

/// False at the start.
fn no() -> Formula {
    Formula::fact(1)
}

/// False at the start, and set by the action that it blocks.
fn set_too_late() -> Formula {
    Formula::fact(2)
}

/// Action 1 has this precondition, and sets fact 2.
fn unmet(
    name: &'static str,
    precondition: Formula,
    steps: &[u8],
    step: u64,
    member: u64,
) -> Blocked {
    let guarded = Action {
        precondition,
        effects: vec![Effect::sets(2, Formula::always())],
    };
    blocked(name, guarded, steps, step, Part::Member(member))
}

fn at_step_0(name: &'static str, precondition: Formula, member: u64) -> Blocked {
    unmet(name, precondition, &[1], 0, member)
}

fn all_at_0(name: &'static str, members: &[Formula], member: u64) -> Blocked {
    at_step_0(name, Formula::all(members.to_vec()), member)
}

/// Whatever a precondition holds that is no "all", its member is 0.
fn no_all() -> Vec<Blocked> {
    let second_is_false = Formula::all([yes(), no()]);
    vec![
        at_step_0("fact", no(), 0),
        at_step_0("denial", Formula::not(0), 0),
        at_step_0("empty-any", Formula::never(), 0),
        at_step_0("any", Formula::any([no(), set_too_late()]), 0),
        at_step_0("any-of-all", Formula::any([second_is_false, no()]), 0),
    ]
}

/// An "all" of literals.
fn literals() -> Vec<Blocked> {
    let after = |count: usize| [vec![yes(); count], vec![no()]].concat();
    vec![
        all_at_0("only", &after(0), 0),
        all_at_0("first", &[no(), yes(), yes()], 0),
        all_at_0("second", &after(1), 1),
        all_at_0("third", &[yes(), Formula::not(1), no(), yes()], 2),
        all_at_0("member-10", &after(10), 10),
        all_at_0("member-254", &after(254), 254),
        all_at_0("several", &[yes(), no(), yes(), Formula::not(0)], 1),
        all_at_0("every", &[no(), no(), no()], 0),
        all_at_0("set-too-late", &[yes(), set_too_late(), no()], 1),
    ]
}

/// An "all" with groups in it: each is one member, whatever it holds.
fn groups() -> Vec<Blocked> {
    let false_any = Formula::any([no(), set_too_late()]);
    let true_any = Formula::any([no(), Formula::all([yes(), yes()]), no()]);
    vec![
        all_at_0("any-is-first", &[false_any.clone(), yes(), no()], 0),
        all_at_0("any-is-second", &[yes(), false_any.clone(), no()], 1),
        all_at_0("empty-any-is-third", &[yes(), yes(), Formula::never()], 2),
        all_at_0("after-any", &[true_any.clone(), no()], 1),
        all_at_0("any-after-any", &[true_any, yes(), false_any, yes()], 2),
    ]
}

/// Members are read in the state before the step that is blocked.
fn later_steps() -> Vec<Blocked> {
    let row = |name, members: [Formula; 3], steps: &[u8], step, member| {
        unmet(name, Formula::all(members), steps, step, member)
    };
    let (fact, not) = (Formula::fact, Formula::not);
    vec![
        // At the start all are true.
        row("becomes-false", [not(2), not(2), fact(0)], &[0, 1], 1, 2),
        // At the start member 0 is false, and it alone.
        row("becomes-true", [fact(1), not(2), fact(0)], &[0, 1], 1, 2),
        // The action itself made it false.
        row("second-time", [fact(0), not(2), not(1)], &[1, 1], 1, 1),
        row("third-step", [fact(0), not(2), not(1)], &[1, 0, 1], 2, 0),
        // Step 2 would be blocked too, by member 0.
        row("steps-left", [fact(0), fact(1), not(1)], &[1, 0, 1], 0, 1),
    ]
}

/// Action 1 has these effects, the sets before the clears.
fn stalled(
    name: &'static str,
    effects: Vec<Effect>,
    steps: &[u8],
    step: u64,
    fact: u64,
) -> Blocked {
    let action = Action {
        precondition: Formula::always(),
        effects,
    };
    blocked(name, action, steps, step, Part::Fact(fact))
}

/// Always sets and always clears each of these facts.
fn both(facts: &[u8]) -> Vec<Effect> {
    let always = |entry: fn(u8, Formula) -> Effect| {
        let entries = facts
            .iter()
            .map(move |fact| entry(*fact, Formula::always()));
        entries.collect::<Vec<_>>()
    };
    [always(Effect::sets), always(Effect::clears)].concat()
}

/// Which fact is named.
fn conflicts() -> Vec<Blocked> {
    let at_0 = |name, effects, fact| stalled(name, effects, &[1], 0, fact);
    let always = Formula::always;
    let lower_set = [vec![Effect::sets(0, always())], both(&[1])].concat();
    let [set_2, clear_2] = [Effect::sets, Effect::clears].map(|entry| entry(2, always()));
    let lower_cleared = vec![
        set_2.clone(),
        Effect::clears(0, always()),
        Effect::clears(1, always()),
        clear_2.clone(),
    ];
    // Facts 0 and 1 have both entries, with one of their conditions false.
    let lower_apart = vec![
        Effect::sets(0, yes()),
        Effect::sets(1, no()),
        set_2,
        Effect::clears(0, no()),
        Effect::clears(1, yes()),
        clear_2,
    ];
    vec![
        at_0("conflict", both(&[2]), 2),
        at_0("conflict-of-a-true-fact", both(&[0]), 0),
        at_0("conflicts-of-two", both(&[1, 2]), 1),
        at_0("conflicts-of-0-and-2", both(&[0, 2]), 0),
        at_0("conflicts-of-all", both(&[0, 1, 2]), 0),
        at_0("lower-fact-is-set", lower_set, 1),
        at_0("lower-facts-are-cleared", lower_cleared, 2),
        at_0("lower-facts-are-apart", lower_apart, 2),
    ]
}

/// Both conditions are true, whatever they are.
fn conflicts_of_conditions() -> Vec<Blocked> {
    let of_2 = |name, set: Formula, clear: Formula| {
        let effects = vec![Effect::sets(2, set), Effect::clears(2, clear)];
        stalled(name, effects, &[1], 0, 2)
    };
    let (fact, not) = (Formula::fact, Formula::not);
    let all = Formula::all([fact(0), Formula::any([fact(1), not(2)])]);
    let any = Formula::any([fact(1), Formula::all([not(1), fact(0)])]);
    vec![
        of_2("conflict-of-a-literal", fact(0), fact(0)),
        of_2("conflict-of-a-denial", not(1), not(1)),
        of_2("conflict-of-literals", fact(0), not(1)),
        of_2("conflict-by-itself", not(2), not(2)),
        of_2("conflict-of-groups", all, any),
    ]
}

/// An unmet precondition comes first.
fn conflicts_and_preconditions() -> Vec<Blocked> {
    let row = |name, precondition, part| {
        let action = Action {
            precondition,
            effects: both(&[0, 2]),
        };
        blocked(name, action, &[1], 0, part)
    };
    let second = Formula::all([yes(), no()]);
    let met = Formula::all([yes(), yes()]);
    vec![
        row("unmet-with-conflicts", no(), Part::Member(0)),
        row("second-unmet-with-conflicts", second, Part::Member(1)),
        row("met-with-conflicts", met, Part::Fact(0)),
    ]
}

/// Conditions are read in the state before the step that is blocked.
fn later_conflicts() -> Vec<Blocked> {
    let (fact, not) = (Formula::fact, Formula::not);
    // True both after action 0 alone.
    let turned = || vec![Effect::sets(2, fact(1)), Effect::clears(2, not(0))];
    // Fact 2, which this sets, is what makes it conflict.
    let own = vec![
        Effect::sets(1, fact(2)),
        Effect::sets(2, Formula::always()),
        Effect::clears(1, fact(2)),
    ];
    let at_255 = [vec![0; 255], vec![1]].concat();
    // True both before action 0 alone.
    let steps_left = vec![Effect::sets(2, fact(0)), Effect::clears(2, not(1))];
    vec![
        stalled("conflict-after-a-step", turned(), &[0, 1], 1, 2),
        stalled("conflict-at-the-last-step", turned(), &[1, 1, 0, 1], 3, 2),
        stalled("conflict-at-255", turned(), &at_255, 255, 2),
        stalled("conflict-the-second-time", own, &[1, 1], 1, 1),
        stalled("conflict-with-steps-left", steps_left, &[1, 0, 1], 0, 2),
    ]
}

/// The one start state has all facts true: each case beside it is empty.
fn conflicts_of_the_most_facts(version: &Version) -> Vec<Blocked> {
    let most = version.most_facts;
    let visits = match version.byte {
        1 => 97,
        _ => 129,
    };
    let row = |name, facts: &[u8]| {
        let row = stalled(name, both(facts), &[1], 0, facts[0].into());
        let problem = Problem {
            version: *version,
            facts: most,
            initial: Formula::all((0..most).map(Formula::fact)),
            ..row.problem
        };
        Blocked {
            problem,
            state: version.number(&vec![true; most.into()]),
            visits,
            ..row
        }
    };
    let every: Vec<u8> = (0..most).collect();
    vec![
        row("conflict-of-fact-10", &[10]),
        row("conflict-of-the-last-fact", &[most - 1]),
        row("conflicts-of-the-last-two", &[most - 2, most - 1]),
        row("conflicts-of-all-facts", &every),
    ]
}
