//! What is refused, and what comes first of several faults.

use std::collections::BTreeSet;

use conformance::encode;
use conformance::families::idle;
use conformance::gen::{at_limits, damaged_problem, merge_case, task, Rng};
use conformance::harness::Operation::Merge;
use conformance::harness::{check, Case};
use conformance::oracle::read_problem;
use conformance::trial;
use conformance::version::{Version, VERSIONS, VERSION_2};

use super::{expect, MERGED};
use crate::support::Library;

of_each_version! {
    each_fault_of_each_hall,
    damaged_halls_of_both_kinds,
    limits_in_turn,
    a_fault_of_a_hall_comes_before_any_limit,
}

/// A block with each fault of a problem, and its place.
fn faulty(version: &Version) -> Vec<(Vec<u8>, [u64; 3])> {
    let block = |body: &[u8]| encode::block(version, body);
    let nine_deep: Vec<u8> = (0..9).flat_map(|at| [0x80 | (at & 1), 1]).collect();
    let effects = |count: u8, literals: &[u8]| {
        let mut body = vec![1, 1, 0, 1, 0, 0, 1, 0, 0, 1, 0, count];
        body.extend(literals.iter().flat_map(|literal| [*literal, 0, 1, 0]));
        block(&body)
    };
    let over = version.most_effects + 1;
    let mut more = trial::problem(version);
    more.push(0);
    encode::mend(&mut more);
    vec![
        (vec![version.byte; 32_769], [0, 10, 32_768]),
        (vec![version.byte; 4], [0, 11, 4]),
        (vec![3, 0, 0, 0, 0], [0, 12, 0]),
        (vec![version.byte, 0, 0, 0, 1], [0, 13, 1]),
        (block(&[]), [0, 14, 5]),
        (block(&[0]), [0, 15, 5]),
        (block(&[1, 65]), [0, 16, 6]),
        (block(&[1, 0, 0, 0]), [0, 17, 7]),
        (block(&[1, 0, 0, 1, 1]), [0, 18, 9]),
        (
            block(&[&[1, 0, 0, 18], &nine_deep[..]].concat()),
            [0, 19, 25],
        ),
        (block(&[1, 0, 0, 1, 0x80]), [0, 20, 10]),
        (block(&[1, 0, 0, 2, 0, 0]), [0, 21, 10]),
        (effects(over, &[]), [0, 22, 16]),
        (effects(1, &[1]), [0, 23, 17]),
        (effects(2, &[0, 0]), [0, 24, 21]),
        (more, [0, 25, 37]),
    ]
}

fn each_fault_of_each_hall(version: &Version) {
    let numbers = faulty(version).into_iter().map(|(_, named)| named[1]);
    assert!(numbers.eq(10..=25));
    for other in &VERSIONS {
        for [block_room, places] in [[0, 0], [63, 4], [33_000, 70]] {
            let refused = |problem: &[u8], second: &[u8], named: &[u64]| {
                let case = Case {
                    problem: problem.to_vec(),
                    second: second.to_vec(),
                    block_room,
                    places,
                    ..Case::default()
                };
                expect(&case, named);
            };
            for (first, named) in &faulty(version) {
                refused(first, &trial::problem(other), named);
                refused(&trial::problem(other), first, named);
                for (second, _) in &faulty(other) {
                    refused(first, second, named);
                }
            }
        }
    }
}

/// Sound or damaged.
fn any_problem(rng: &mut Rng, version: &Version) -> Vec<u8> {
    match rng.below(3) {
        0 => encode::problem(&task(rng, version).problem),
        _ => damaged_problem(rng, version),
    }
}

/// The numbers of problems' faults, as one generator of damage makes them on both sides.
fn damaged_halls_of_both_kinds(version: &Version) {
    let mut rng = Rng::new(0x2a11);
    let mut met = [BTreeSet::new(), BTreeSet::new()];
    let (mut both, mut merged) = (0, 0);
    for _ in 0..12_000 {
        let other = rng.pick(&VERSIONS);
        let [problem, second] = [version, &other].map(|version| any_problem(&mut rng, version));
        let case = Case {
            problem,
            second,
            block_room: 33_000,
            places: 64,
            ..Case::default()
        };
        let answer = check(&Library, Merge, &case).expect("as the oracle does");
        let faults = [&case.problem, &case.second].map(|block| read_problem(block).err());
        match faults {
            [Some(fault), second] => {
                assert_eq!(answer[..3], [0, fault.number, fault.place]);
                met[0].insert(fault.number);
                both += u32::from(second.is_some());
            }
            [None, Some(fault)] => {
                assert_eq!(answer[..3], [0, fault.number, fault.place]);
                met[1].insert(fault.number);
            }
            [None, None] => {
                assert!(answer[0] == MERGED || (82..=85).contains(&answer[1]));
                merged += u32::from(answer[0] == MERGED);
            }
        }
    }
    let every: BTreeSet<u64> = (10..=25).collect();
    assert_eq!(met, [every.clone(), every]);
    assert!(both > 1_000 && merged > 500, "{both} {merged}");
}

/// Each set of the five, which two halls are over at once: the first of them decides.
fn limits_in_turn(version: &Version) {
    for other in VERSIONS {
        for set in 0..32u32 {
            let past = [0, 1, 2, 3, 4].map(|limit| set >> limit & 1 == 1);
            let [limits @ .., short] = past;
            let [first, second] = at_limits([*version, other], limits);
            let exact = [32_768 + usize::from(limits[3]), 64 + usize::from(limits[1])];
            let number = (82..).zip(past).find(|(_, past)| *past);
            let named = number.map_or(vec![1, 32_768, 64], |(number, _)| vec![0, number, 0]);
            let short_by = |less: [usize; 2]| {
                let room = [exact[0] - less[0], exact[1] - less[1]];
                expect(&merge_case(&first, &second, room), &named);
            };
            if short {
                for less in [[1, 0], [0, 1], [1, 1], exact] {
                    short_by(less);
                }
            } else {
                short_by([0, 0]);
            }
        }
    }
}

/// Two halls of 64 facts, of which the second has a byte too many.
fn a_fault_of_a_hall_comes_before_any_limit(version: &Version) {
    let large = encode::problem(&idle(VERSION_2, 64));
    let mut more = large.clone();
    more.push(0);
    encode::mend(&mut more);
    for (problem, second, named) in [
        (&large, &more, [0, 25, 15]),
        (&more, &large, [0, 25, 15]),
        (&large, &trial::problem(version), [0, 82, 0]),
        (&trial::problem(version), &large, [0, 82, 0]),
    ] {
        let case = Case {
            problem: problem.clone(),
            second: second.clone(),
            ..Case::default()
        };
        expect(&case, &named);
    }
}
