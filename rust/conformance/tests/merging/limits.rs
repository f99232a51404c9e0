//! Each limit, at its edge and one past it.

use conformance::encode;
use conformance::families::idle;
use conformance::gen::{at_limits, formula_of_size, merge_case, problem_of_size};
use conformance::model::{Action, Effect, Formula, Kind, Problem};
use conformance::oracle::read_problem;
use conformance::trial;
use conformance::version::{Version, MOST_ACTIONS, MOST_PROBLEM_BYTES, VERSIONS, VERSION_2};

use super::{expect, merged, refuses};

of_each_version! {
    members_255_256,
    depth_8_9,
    bytes_1024_1025,
    facts_64_65,
    actions_64_65,
    blocks_of_32768_and_32769_bytes,
    effects_of_as_many_facts_as_there_can_be,
    buffers_at_one_under_and_one_over_the_need,
    the_same_in_every_pair_of_versions,
}

/// A buffer and a table of these lengths hold any merged problem.
#[test]
fn the_limits_are_those_of_the_safe_crate() {
    assert_eq!(MOST_PROBLEM_BYTES, larkhammock::LONGEST_PROBLEM);
    assert_eq!(MOST_ACTIONS, larkhammock::MOST_ACTIONS);
    let [first, second] = at_limits([VERSION_2; 2], [false; 4]).map(|hall| encode::problem(&hall));
    let mut out = [0; larkhammock::LONGEST_PROBLEM];
    let mut table = [0; larkhammock::MOST_ACTIONS];
    let merged = larkhammock::merge(&first, &second, &mut out, &mut table).expect("it fits");
    assert_eq!((merged.problem.len(), merged.numbers.len()), (32_768, 64));
}

/// The "all" of two formulas has so many bytes, or is over a limit: as the initial formula
/// and as the goal, and with the first hall's of this version.
#[track_caller]
fn joins(version: &Version, [first, second]: [&Formula; 2], bytes: Option<usize>) {
    for other in VERSIONS {
        let plain = [idle(*version, 1), idle(other, 1)];
        let mut starts = plain.clone();
        let mut goals = plain;
        for (at, formula) in [first, second].into_iter().enumerate() {
            starts[at].initial = formula.clone();
            goals[at].goal = formula.clone();
        }
        let Some(bytes) = bytes else {
            refuses(&starts[0], &starts[1], 84);
            refuses(&goals[0], &goals[1], 84);
            continue;
        };
        let initial = merged(&starts[0], &starts[1]).problem.initial;
        let goal = merged(&goals[0], &goals[1]).problem.goal;
        assert_eq!(initial, goal);
        assert_eq!(encode::bare(&initial).len(), bytes);
    }
}

/// So many members, each of one byte.
fn row(kind: Kind, members: usize) -> Formula {
    Formula::Group(kind, vec![Formula::fact(0); members])
}

fn members_255_256(version: &Version) {
    let all = |members| row(Kind::All, members);
    let any = |members| row(Kind::Any, members);
    let literal = &Formula::not(0);
    for (first, second, bytes) in [
        (&all(200), &all(55), Some(257)),
        (&all(200), &all(56), None),
        (&all(55), &all(201), None),
        (&all(255), &all(0), Some(257)),
        (&all(0), &all(255), Some(257)),
        (&all(255), &all(1), None),
        (&all(255), &all(255), None),
        (&all(254), literal, Some(257)),
        (literal, &all(254), Some(257)),
        (&all(255), literal, None),
        (literal, &all(255), None),
        (&all(254), &any(0), Some(258)),
        (&all(255), &any(0), None),
        (&any(3), &all(254), Some(261)),
        (&any(3), &all(255), None),
        // An "any" is one member, however many it has.
        (&any(255), &any(255), Some(516)),
        (&any(255), &all(254), Some(513)),
        (&any(255), &all(255), None),
    ] {
        joins(version, [first, second], bytes);
    }
}

/// So many groups in one another, the outermost of this kind: two bytes each, and one for
/// the literal within.
fn deep(kind: Kind, depth: usize) -> Formula {
    let kinds = [kind, kind.other()].into_iter().cycle().take(depth);
    let outward: Vec<Kind> = kinds.collect();
    outward
        .into_iter()
        .rev()
        .fold(Formula::fact(0), |inner, kind| {
            Formula::Group(kind, vec![inner])
        })
}

/// An "any" gets one deeper, and an "all" does not.
fn depth_8_9(version: &Version) {
    // With the bytes that each brings.
    let fit = [
        (deep(Kind::Any, 7), 15),
        (deep(Kind::All, 7), 13),
        (deep(Kind::All, 8), 15),
        (Formula::always(), 0),
        (Formula::fact(0), 1),
    ];
    let over = &deep(Kind::Any, 8);
    for (first, here) in &fit {
        for (second, there) in &fit {
            joins(version, [first, second], Some(2 + here + there));
        }
        joins(version, [first, over], None);
        joins(version, [over, first], None);
    }
    joins(version, [over, over], None);
}

/// An "any" of so many bytes.
fn any_of_size(size: usize) -> Formula {
    Formula::any([formula_of_size(size - 2)])
}

/// An "all" leaves its mark and count behind.
fn bytes_1024_1025(version: &Version) {
    let all = formula_of_size;
    let nothing = &Formula::always();
    let literal = &Formula::fact(0);
    for (first, second, bytes) in [
        (&all(1_024), nothing, 1_024),
        (&all(1_023), literal, 1_024),
        (&all(1_024), literal, 1_025),
        (&all(512), &all(514), 1_024),
        (&all(512), &all(515), 1_025),
        (&all(1_024), &all(1_024), 2_046),
        (&any_of_size(1_022), nothing, 1_024),
        (&any_of_size(1_023), nothing, 1_025),
        (&any_of_size(1_024), nothing, 1_026),
        (&any_of_size(1_021), literal, 1_024),
        (&any_of_size(1_022), literal, 1_025),
        (&any_of_size(511), &any_of_size(511), 1_024),
        (&any_of_size(511), &any_of_size(512), 1_025),
        (&any_of_size(500), &all(524), 1_024),
        (&any_of_size(500), &all(525), 1_025),
    ] {
        let bytes = Some(bytes).filter(|bytes| *bytes <= 1_024);
        joins(version, [first, second], bytes);
        joins(version, [second, first], bytes);
    }
}

fn facts_64_65(version: &Version) {
    for other in VERSIONS {
        for first in 1..=version.most_facts {
            let hall = &idle(*version, first);
            let left = 64 - first;
            if (1..=other.most_facts).contains(&left) {
                let merged = merged(hall, &idle(other, left));
                assert_eq!(merged.problem, idle(VERSION_2, 64));
            }
            if left < other.most_facts {
                refuses(hall, &idle(other, left + 1), 82);
            }
            if first + other.most_facts > 64 {
                refuses(hall, &idle(other, other.most_facts), 82);
            }
        }
    }
}

/// So many actions that do nothing.
fn hall_of_actions(version: Version, actions: usize) -> Problem {
    let idle_action = Action {
        precondition: Formula::always(),
        effects: Vec::new(),
    };
    Problem {
        actions: vec![idle_action; actions],
        ..idle(version, 1)
    }
}

fn actions_64_65(version: &Version) {
    for other in VERSIONS {
        for first in 0..=64 {
            let hall = &hall_of_actions(*version, first);
            let merged = merged(hall, &hall_of_actions(other, 64 - first));
            assert_eq!(merged.problem.actions.len(), 64);
            if first > 0 {
                refuses(hall, &hall_of_actions(other, 65 - first), 83);
                refuses(hall, &hall_of_actions(other, 64), 83);
            }
        }
    }
}

fn blocks_of_32768_and_32769_bytes(version: &Version) {
    for other in VERSIONS {
        let of_size = |first, second| {
            [
                problem_of_size(*version, first),
                problem_of_size(other, second),
            ]
        };
        // Five bytes, two counts and two formulas of four bytes are there once.
        for (first, second) in [(32_768, 15), (15, 32_768), (16_384, 16_399), (32_000, 783)] {
            let [first, second] = of_size(first, second);
            assert_eq!(merged(&first, &second).block.len(), 32_768);
        }
        for (first, second) in [(32_768, 19), (19, 32_768), (16_384, 16_400), (32_000, 784)] {
            let [first, second] = of_size(first, second);
            refuses(&first, &second, 85);
        }
        // A literal as the other hall's goal is one byte more than nothing.
        let [long, mut short] = of_size(32_768, 15);
        short.goal = Formula::fact(0);
        refuses(&long, &short, 85);
        refuses(&short, &long, 85);
    }
}

/// An action that sets each fact and clears it.
fn hall_of_effects(version: Version, facts: u8) -> Problem {
    let sets = (0..facts).map(|fact| Effect::sets(fact, Formula::not(fact)));
    let clears = (0..facts).map(|fact| Effect::clears(fact, Formula::fact(fact)));
    let action = Action {
        precondition: Formula::always(),
        effects: sets.chain(clears).collect(),
    };
    Problem {
        actions: vec![action],
        ..idle(version, facts)
    }
}

/// A hall of 64 facts, which 128 effects take, stands beside no other: there are 63 facts
/// at most, and 126 effects. Version 1 has 96 for its 48 facts.
fn effects_of_as_many_facts_as_there_can_be(version: &Version) {
    for facts in [48, 49, 63] {
        let many = hall_of_effects(VERSION_2, facts);
        let one = idle(*version, 1);
        for (merged, moved) in [(merged(&many, &one), 0), (merged(&one, &many), 1)] {
            let effects = &merged.problem.actions[0].effects;
            assert_eq!(effects.len(), 2 * usize::from(facts));
            let literals = effects.iter().map(|effect| encode::literal(effect.literal));
            let sets = moved..moved + facts;
            let clears = 64 + moved..64 + moved + facts;
            assert!(literals.eq(sets.chain(clears)));
        }
    }
    let most = hall_of_effects(VERSION_2, 64);
    assert_eq!(most.actions[0].effects.len(), 128);
    refuses(&most, &idle(*version, 1), 82);
    refuses(&idle(*version, 1), &most, 82);
}

/// Buffers that need so many bytes; what is past them, and all of a refused call's, is
/// compared with what was there.
#[track_caller]
fn needs([first, second]: [&Problem; 2], [block, count]: [usize; 2]) {
    let around = |need: usize| {
        [
            0,
            need / 2,
            need.saturating_sub(1),
            need,
            need + 1,
            need + 40,
        ]
    };
    for room in around(block) {
        for places in around(count) {
            let case = merge_case(first, second, [room, places]);
            let fits = room >= block && places >= count;
            let lengths = [1, block as u64, count as u64];
            expect(&case, if fits { &lengths } else { &[0, 86, 0] });
        }
    }
}

fn buffers_at_one_under_and_one_over_the_need(version: &Version) {
    for other in VERSIONS {
        let hall = |version: &Version| {
            let block = trial::problem(version);
            read_problem(&block).expect("it is sound")
        };
        needs([&hall(version), &hall(&other)], [63, 4]);
        needs([&idle(*version, 1), &idle(other, 1)], [15, 0]);
        // The goal, a literal, becomes an "all" of it: two bytes more.
        needs([&hall(version), &idle(other, 1)], [39, 2]);
        let [first, second] = at_limits([*version, other], [false; 4]);
        needs([&first, &second], [32_768, 64]);
    }
}

/// What a hall says is the same in either version.
fn the_same_in_every_pair_of_versions(version: &Version) {
    let [first, second] = at_limits([*version; 2], [false; 4]);
    let small = read_problem(&trial::problem(version)).expect("it is sound");
    for [first, second] in [
        [&first, &second],
        [&small, &small],
        [&small, &idle(*version, 7)],
    ] {
        let expected = merged(first, second).problem;
        assert_eq!(expected.version, VERSION_2);
        for one in VERSIONS {
            for other in VERSIONS {
                let of = |version, problem: &Problem| Problem {
                    version,
                    ..problem.clone()
                };
                let merged = merged(&of(one, first), &of(other, second));
                assert_eq!(merged.problem, expected);
            }
        }
    }
}
