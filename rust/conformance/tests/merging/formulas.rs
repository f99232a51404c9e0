//! Initial formulas and goals, and the facts of actions, byte by byte.

use conformance::encode;
use conformance::families::idle;
use conformance::gen::{sound_case, Rng};
use conformance::model::{Action, Effect, Formula, Problem};
use conformance::trial::hex;
use conformance::version::{Version, VERSIONS, VERSION_2};
use larkhammock::raw;

use super::merged;

of_each_version! {
    each_kind_of_formula_on_either_side,
    every_literal_of_the_second_hall_is_moved,
    the_first_hall_s_actions_and_then_the_second_s,
    tables_at_no_action_at_one_and_at_the_most,
    two_merges_are_the_same_bytes,
}

/// A formula of three facts, and the members that it brings, in bytes: those of the first
/// hall, and those of the second behind three facts.
struct Kind {
    formula: Formula,
    members: u8,
    first: &'static str,
    second: &'static str,
}

fn kinds() -> Vec<Kind> {
    let kind = |formula, members, first, second| Kind {
        formula,
        members,
        first,
        second,
    };
    let (fact, not) = (Formula::fact, Formula::not);
    let all = |members: &[Formula]| Formula::all(members.to_vec());
    let any = |members: &[Formula]| Formula::any(members.to_vec());
    vec![
        kind(fact(1), 1, "01", "04"),
        kind(not(2), 1, "42", "45"),
        kind(any(&[fact(0), not(1)]), 1, "81 02 00 41", "81 02 03 44"),
        kind(all(&[fact(0), not(1)]), 2, "00 41", "03 44"),
        kind(all(&[fact(2)]), 1, "02", "05"),
        kind(any(&[fact(2)]), 1, "81 01 02", "81 01 05"),
        kind(Formula::always(), 0, "", ""),
        kind(Formula::never(), 1, "81 00", "81 00"),
        kind(all(&[Formula::never()]), 1, "81 00", "81 00"),
        kind(any(&[Formula::always()]), 1, "81 01 80 00", "81 01 80 00"),
        kind(
            any(&[all(&[fact(0), not(2)]), fact(1)]),
            1,
            "81 02 80 02 00 42 01",
            "81 02 80 02 03 45 04",
        ),
        kind(
            all(&[not(0), any(&[fact(1), all(&[not(2), not(1)])])]),
            2,
            "40 81 02 01 80 02 42 41",
            "43 81 02 04 80 02 45 44",
        ),
    ]
}

/// The "all" of two, with its length before it.
fn joined(first: &Kind, second: &Kind) -> Vec<u8> {
    let members = [hex(first.first), hex(second.second)].concat();
    let mut bytes = vec![0, members.len() as u8 + 2];
    bytes.extend([0x80, first.members + second.members]);
    bytes.extend(members);
    bytes
}

fn each_kind_of_formula_on_either_side(version: &Version) {
    for other in VERSIONS {
        for one in &kinds() {
            for two in &kinds() {
                // Both formulas differ where the kinds do.
                let hall = |version, initial: &Kind, goal: &Kind| Problem {
                    initial: initial.formula.clone(),
                    goal: goal.formula.clone(),
                    ..idle(version, 3)
                };
                let merged = merged(&hall(*version, one, two), &hall(other, two, one));
                let body = [vec![6, 0], joined(one, two), joined(two, one)].concat();
                assert_eq!(merged.block, encode::block(&VERSION_2, &body));
                assert!(merged.numbers.is_empty());
            }
        }
    }
}

/// An action with a literal in each place that has one.
fn busy() -> Action {
    let condition = Formula::all([Formula::fact(1), Formula::not(0)]);
    Action {
        precondition: Formula::any([Formula::not(1), Formula::fact(0)]),
        effects: vec![
            Effect::sets(0, Formula::not(1)),
            Effect::sets(1, Formula::never()),
            Effect::clears(0, condition),
            Effect::clears(1, Formula::fact(0)),
        ],
    }
}

fn every_literal_of_the_second_hall_is_moved(version: &Version) {
    let hall = |version, facts| Problem {
        actions: vec![busy()],
        ..idle(version, facts)
    };
    let here = "0004 81 02 41 00 04 00 0001 41 01 0002 81 00 40 0004 80 02 01 40 41 0001 00";
    for other in VERSIONS {
        for (facts, there) in [
            (
                2,
                "0004 81 02 43 02 04 02 0001 43 03 0002 81 00 42 0004 80 02 03 42 43 0001 02",
            ),
            (
                // The highest that there are: facts 46 and 47 of 48.
                46,
                "0004 81 02 6f 2e 04 2e 0001 6f 2f 0002 81 00 6e 0004 80 02 2f 6e 6f 0001 2e",
            ),
        ] {
            let merged = merged(&hall(*version, facts), &hall(other, 2));
            let [first, second] = &merged.problem.actions[..] else {
                panic!("there are two actions");
            };
            assert_eq!(encode::action(first), hex(here));
            assert_eq!(encode::action(second), hex(there));
            assert_eq!(merged.problem.facts, facts + 2);
        }
    }
    // Fact 63 of 64, which version 2 alone has.
    let merged = merged(&idle(VERSION_2, 62), &hall(*version, 2));
    let last = "0004 81 02 7f 3e 04 3e 0001 7f 3f 0002 81 00 7e 0004 80 02 3f 7e 7f 0001 3e";
    assert_eq!(encode::action(&merged.problem.actions[0]), hex(last));
}

/// So many facts, but one at least, and so many actions, each with a precondition of its
/// own.
pub fn counting(version: Version, count: u8) -> Problem {
    let action = |fact| Action {
        precondition: Formula::fact(fact),
        effects: Vec::new(),
    };
    Problem {
        actions: (0..count).map(action).collect(),
        ..idle(version, count.max(1))
    }
}

fn the_first_hall_s_actions_and_then_the_second_s(version: &Version) {
    for other in VERSIONS {
        for [first, second] in [[1, 1], [1, 5], [7, 2], [32, 32], [16, 48], [48, 16]] {
            let merged = merged(&counting(*version, first), &counting(other, second));
            assert_eq!(merged.problem, counting(VERSION_2, first + second));
        }
    }
}

fn tables_at_no_action_at_one_and_at_the_most(version: &Version) {
    let most: Vec<u8> = (0..64).collect();
    for other in VERSIONS {
        let table = |first, second| {
            let halls = [counting(*version, first), counting(other, second)];
            merged(&halls[0], &halls[1]).numbers
        };
        assert_eq!(table(0, 0), []);
        assert_eq!(table(1, 0), [0]);
        assert_eq!(table(0, 1), [0]);
        assert_eq!(table(1, 1), [0, 1]);
        for first in [16, 20, 31, 32, 48] {
            assert_eq!(table(first, 64 - first), most);
        }
    }
    // All of them in one hall: no fact tells them apart.
    let all = Problem {
        actions: vec![busy(); 64],
        ..idle(*version, 2)
    };
    assert_eq!(merged(&all, &idle(VERSION_2, 1)).numbers, most);
    assert_eq!(merged(&idle(VERSION_2, 1), &all).numbers, most);
}

/// Of other buffers, and with what the first merge wrote still in them.
fn two_merges_are_the_same_bytes(version: &Version) {
    let mut rng = Rng::new(0x2a21);
    let mut met = 0;
    for _ in 0..1_000 {
        let case = sound_case(&mut rng, version);
        let [mut out, mut table] = [[0; 32_768].to_vec(), [0; 64].to_vec()];
        let once = raw::merge(&case.problem, &case.second, &mut out, &mut table).word;
        let [mut other_out, mut other_table] = [vec![0xa5; 32_769], vec![0xa5; 70]];
        for _ in 0..2 {
            let blocks = (&case.problem, &case.second);
            let again = raw::merge(blocks.0, blocks.1, &mut other_out, &mut other_table).word;
            assert_eq!(again, once);
            let [1, length, count, ..] = once else {
                continue;
            };
            assert_eq!(other_out[..length as usize], out[..length as usize]);
            assert_eq!(other_table[..count as usize], table[..count as usize]);
            met += 1;
        }
    }
    assert!(met > 500, "{met}");
}
