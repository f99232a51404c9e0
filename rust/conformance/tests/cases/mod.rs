//! What the desk program is tried on, one case or more for each kind of print.

pub mod apart;
pub mod blocked;
pub mod relevant;
pub mod searched;

use conformance::encode;
use conformance::families::{idle, of_lines};
use conformance::gen::formula_of_size;
use conformance::model::{Action, Effect, Formula, Kind, Problem};
use conformance::oracle::{self, Part};
use conformance::trial;
use conformance::version::Version;

/// The bytes of both files, and the first line of the print, worked out by hand.
pub struct Case {
    pub name: String,
    pub problem: Vec<u8>,
    pub plan: Vec<u8>,
    pub says: String,
}

fn case(name: &str, problem: &[u8], plan: &[u8], says: &str) -> Case {
    Case {
        name: name.into(),
        problem: problem.to_vec(),
        plan: plan.to_vec(),
        says: says.into(),
    }
}

/// The same where both are sound: trees and steps.
fn sound(name: &str, problem: &Problem, steps: &[u8], says: &str) -> Case {
    case(name, &encode::problem(problem), &encode::plan(steps), says)
}

/// Every state is a start, nothing can be done, and this is the goal.
fn goal_only(version: &Version, facts: u8, goal: Formula) -> Problem {
    Problem {
        goal,
        ..idle(*version, facts)
    }
}

/// True in every state, but no case reads it as true before all facts are fixed.
fn every_fact(facts: u8) -> Formula {
    Formula::all((0..facts).map(Formula::either))
}

fn p(version: &Version) -> Problem {
    oracle::read_problem(&trial::problem(version)).expect("P is sound")
}

/// The verdict on P with a right plan.
fn right_for_p() -> &'static str {
    trial::PRINT
        .lines()
        .next()
        .expect("the verdict comes first")
}

/// P with action 0 applicable only where fact 0 is true.
fn guarded(version: &Version) -> Problem {
    let mut problem = p(version);
    problem.actions[0].precondition = Formula::fact(0);
    problem
}

/// Those of a version.
pub fn all(version: &Version) -> Vec<Case> {
    [
        trials(version),
        blocks(version),
        conflicts(version),
        many_facts(version),
        many_visits(version),
        many_lines(version),
        refused_problems(version),
        refused_plans(version),
        sizes(version),
    ]
    .into_iter()
    .flatten()
    .collect()
}

fn trials(version: &Version) -> Vec<Case> {
    let mut no_start = p(version);
    no_start.initial = Formula::never();
    let late = |steps: usize| [vec![1; steps], vec![0]].concat();
    let missed = "wrong 010 at end visited 5";
    let mut stalling = p(version);
    stalling.actions[0].effects = vec![
        Effect::sets(2, Formula::always()),
        Effect::clears(2, Formula::always()),
    ];
    vec![
        sound("p-0-1", &p(version), &[0, 1], right_for_p()),
        sound("p-0", &p(version), &[0], missed),
        sound("p-empty", &p(version), &[], missed),
        sound(
            "guarded",
            &guarded(version),
            &[0, 1],
            "wrong 010 at step 0 member 0 visited 5",
        ),
        sound(
            "step-10",
            &guarded(version),
            &late(10),
            "wrong 010 at step 10 member 0 visited 5",
        ),
        sound(
            "step-255",
            &guarded(version),
            &late(255),
            "wrong 010 at step 255 member 0 visited 5",
        ),
        sound(
            "stalling",
            &stalling,
            &[0, 1],
            "wrong 010 at step 0 fact 2 visited 5",
        ),
        sound("no-start", &no_start, &[1], "right lines 1 visited 1"),
    ]
}

fn blocks(version: &Version) -> Vec<Case> {
    blocked::all(version)
        .into_iter()
        .map(|row| {
            let name = format!("blocked-{}", row.name);
            let values = version.values(row.state, row.problem.facts);
            let state: String = values.iter().map(|v| if *v { '1' } else { '0' }).collect();
            let part = match row.part {
                Part::Member(member) => format!("member {member}"),
                Part::Fact(fact) => format!("fact {fact}"),
            };
            let (step, visits) = (row.step, row.visits);
            let says = format!("wrong {state} at step {step} {part} visited {visits}");
            sound(&name, &row.problem, &row.steps, &says)
        })
        .collect()
}

fn conflicts(version: &Version) -> Vec<Case> {
    apart::all(version)
        .into_iter()
        .map(|row| {
            let name = format!("apart-{}", row.name);
            let lines = row.list.len();
            let says = format!("right lines {lines} visited {}", 2 * lines - 1);
            sound(&name, &row.problem, &row.steps, &says)
        })
        .collect()
}

fn many_facts(version: &Version) -> Vec<Case> {
    let most = version.most_facts;
    let facts = || Formula::all((0..most).map(Formula::fact));
    // One start state; each shorter case beside it is empty.
    let one_start = Problem {
        initial: facts(),
        ..goal_only(version, most, facts())
    };
    let never = Problem {
        goal: Formula::not(most - 1),
        ..one_start.clone()
    };
    let marks = |mark: &str| mark.repeat(most.into());
    let (lines, down, all) = match version.byte {
        1 => (49, 49, 97),
        _ => (65, 65, 129),
    };
    let one = "right lines 1 visited 1";
    let each = format!("right lines {lines} visited {all}");
    let nothing = format!("wrong {} at end visited {down}", marks("0"));
    let ones = format!("wrong {} at end visited {all}", marks("1"));
    let named = |name: &str| format!("{most}-facts{name}");
    let always = Formula::always;
    vec![
        sound("1-fact", &goal_only(version, 1, always()), &[], one),
        sound(&named(""), &goal_only(version, most, always()), &[], one),
        sound(&named("-each-k"), &one_start, &[], &each),
        sound(
            &named("-no"),
            &goal_only(version, most, facts()),
            &[],
            &nothing,
        ),
        sound(&named("-yes"), &never, &[], &ones),
    ]
}

fn many_visits(version: &Version) -> Vec<Case> {
    // Of 20 facts, all cases before this leaf are open or reached. The walk
    // meets it after twice its number, less its ones, and 21 on the way down.
    let failing_at = |leaf: u32| {
        let differs = (0..20).map(|fact| match leaf >> (19 - fact) & 1 {
            1 => Formula::not(fact),
            _ => Formula::fact(fact),
        });
        let mut members: Vec<Formula> = (0..20).map(Formula::either).collect();
        members.push(Formula::any(differs));
        goal_only(version, 20, Formula::all(members))
    };
    let spent = "undecided visited 1000000";
    let last = format!("wrong {:020b} at end visited 1000000", 499_994);
    vec![
        sound(
            "21-facts",
            &goal_only(version, 21, every_fact(21)),
            &[],
            spent,
        ),
        sound("last-visit", &failing_at(499_994), &[], &last),
        sound("one-visit-more", &failing_at(499_995), &[], spent),
    ]
}

fn many_lines(version: &Version) -> Vec<Case> {
    let (most, visits) = match version.byte {
        1 => (8_191, 16_381),
        _ => (6_553, 13_105),
    };
    let right = |lines: u32, visits: u32| {
        let says = format!("right lines {lines} visited {visits}");
        let problem = of_lines(*version, 13, lines);
        sound(&format!("{lines}-lines"), &problem, &[], &says)
    };
    let wide = "right lines 4096 visited 8191";
    vec![
        sound(
            "12-facts",
            &goal_only(version, 12, every_fact(12)),
            &[],
            wide,
        ),
        right(most, visits),
        right(most + 1, visits + 2),
    ]
}

/// One action with these effect bytes, their count before them.
fn with_effects(version: &Version, effects: &[u8]) -> Vec<u8> {
    let body = [&[1, 1, 0, 1, 0, 0, 1, 0, 0, 1, 0], effects].concat();
    encode::block(version, &body)
}

fn refused_problems(version: &Version) -> Vec<Case> {
    let block = |body: &[u8]| encode::block(version, body);
    let p = trial::problem(version);
    let mut strange = p.clone();
    strange[0] = 3;
    let (many, effects) = match version.byte {
        1 => (49, 97),
        _ => (65, 129),
    };
    let longer = [&p[..], &[0]].concat();
    let mut mended = longer.clone();
    encode::mend(&mut mended);
    let idle = Action {
        precondition: Formula::always(),
        effects: Vec::new(),
    };
    let crowded = Problem {
        actions: vec![idle; 65],
        ..goal_only(version, 1, Formula::always())
    };
    let nested = |depth: usize| {
        let mut kind = Kind::Any;
        let goal = (0..depth).fold(Formula::fact(0), |inner, _| {
            kind = kind.other();
            Formula::Group(kind, vec![inner])
        });
        encode::problem(&Problem {
            initial: goal,
            ..goal_only(version, 1, Formula::always())
        })
    };
    [
        (&vec![0; 32_769][..], 10, 32_768),
        (&[], 11, 0),
        (&p[..4], 11, 4),
        (&strange, 12, 0),
        (&longer, 13, 1),
        (&block(&[1]), 14, 6),
        (
            &encode::problem(&goal_only(version, 0, Formula::always())),
            15,
            5,
        ),
        (
            &encode::problem(&goal_only(version, many, Formula::always())),
            15,
            5,
        ),
        (&encode::problem(&crowded), 16, 6),
        (&block(&[1, 0, 0, 0]), 17, 7),
        (&block(&[1, 0, 0, 1, 1]), 18, 9),
        (&nested(9), 19, 25),
        (&block(&[1, 0, 0, 2, 0x80, 1]), 20, 11),
        (&block(&[1, 0, 0, 2, 0, 0]), 21, 10),
        (&with_effects(version, &[effects]), 22, 16),
        (&with_effects(version, &[1, 1, 0, 1, 0]), 23, 17),
        (&with_effects(version, &[2, 0, 0, 1, 0, 0, 0, 1, 0]), 24, 21),
        (&mended, 25, 37),
    ]
    .into_iter()
    .map(|(problem, number, place)| {
        let name = format!("problem-{number}-{place}");
        let says = format!("refused problem {number} at {place}");
        // The plan is unsound too, but the problem comes first.
        case(&name, problem, &[2], &says)
    })
    .collect()
}

fn refused_plans(version: &Version) -> Vec<Case> {
    [
        (&encode::plan(&[0; 257])[..], 30, 261),
        (&[0; 40_000], 30, 261),
        (&[], 31, 0),
        (&[1, 0, 0, 0], 31, 4),
        (&[0, 0, 0, 0, 0], 32, 0),
        (&[1, 0, 0, 0, 2, 0], 33, 1),
        (&encode::plan(&[0, 2]), 34, 6),
    ]
    .into_iter()
    .map(|(plan, number, place)| {
        let name = format!("plan-{number}-{place}-of-{}", plan.len());
        let says = format!("refused plan {number} at {place}");
        case(&name, &trial::problem(version), plan, &says)
    })
    .collect()
}

/// Blocks as long as they may be, and longer.
fn sizes(version: &Version) -> Vec<Case> {
    // Fact 0 is all that 32 long preconditions ask for.
    let long = |last: usize| {
        let actions = (0..32).map(|i| Action {
            precondition: formula_of_size(if i < 31 { 1_024 } else { last }),
            effects: Vec::new(),
        });
        Problem {
            version: *version,
            facts: 1,
            initial: Formula::fact(0),
            goal: Formula::fact(0),
            actions: actions.collect(),
        }
    };
    let steps: Vec<u8> = (0..32).collect();
    let right = "right lines 2 visited 3";
    let over = "refused problem 10 at 32768";
    let most = [0, 1].repeat(128);
    vec![
        sound("32767-bytes", &long(914), &steps, right),
        sound("32768-bytes", &long(915), &steps, right),
        sound("32769-bytes", &long(916), &steps, over),
        case("200000-bytes", &[1; 200_000], &encode::plan(&[]), over),
        sound("256-steps", &p(version), &most, right_for_p()),
    ]
}
