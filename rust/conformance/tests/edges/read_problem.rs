//! Reading a problem.

use conformance::answer::words;
use conformance::encode;
use conformance::gen::formula_of_size;
use conformance::harness::Case;
use conformance::harness::Operation::ReadProblem;
use conformance::model::Problem;
use conformance::trial;
use conformance::version::{Version, DENIAL};
use larkhammock::raw;

use super::problems::{clearing_all, longest, nested, plain, problem_of_size};
use super::{ended_early, expect};

#[track_caller]
fn reads(problem: &Problem, named: &[u64]) {
    reads_bytes(encode::problem(problem), named);
}

#[track_caller]
fn reads_bytes(problem: Vec<u8>, named: &[u64]) {
    let case = Case {
        problem,
        ..Case::default()
    };
    expect(ReadProblem, &case, named);
}

of_each_version! {
    facts_0_1_the_most_and_one_more,
    actions_64_65,
    effects_the_most_and_one_more,
    effect_literals_are_declared_and_rise,
    formula_lengths_0_1_1024_1025,
    depth_8_9,
    what_comes_first_at_a_group_mark,
    formula_bytes_that_are_not_allowed,
    literals_of_the_most_facts,
    a_problem_cut_anywhere_ends_inside_a_field,
    nothing_past_a_length_is_read,
    problem_of_32768_and_32769_bytes,
}

fn facts_0_1_the_most_and_one_more(version: &Version) {
    reads(&plain(version, 0, 0), &[0, 15, 5]);
    reads(&plain(version, 1, 0), &[1, 1, 0]);
    let most = match version.byte {
        1 => 48,
        _ => 64,
    };
    reads(&plain(version, most, 0), &[1, most.into(), 0]);
    reads(&plain(version, most + 1, 0), &[0, 15, 5]);
    reads(&plain(version, 255, 0), &[0, 15, 5]);
}

fn actions_64_65(version: &Version) {
    reads(&plain(version, 1, 64), &[1, 1, 64]);
    reads(&plain(version, 1, 65), &[0, 16, 6]);
}

fn effects_the_most_and_one_more(version: &Version) {
    let (facts, effects) = match version.byte {
        1 => (48, 96),
        _ => (64, 128),
    };
    let mut problem = clearing_all(version);
    assert_eq!(problem.actions[0].effects.len(), effects);
    reads(&problem, &[1, facts, 1]);
    let one_more = problem.actions[0].effects[effects - 1].clone();
    problem.actions[0].effects.push(one_more);
    reads(&problem, &[0, 22, 19]);
}

fn effect_literals_are_declared_and_rise(version: &Version) {
    let with = |literals: &[u8]| {
        let mut body = vec![3, 1, 0, 1, 0, 0, 1, 0, 0, 1, 0, literals.len() as u8];
        for literal in literals {
            body.extend([*literal, 0, 1, 0]);
        }
        encode::block(version, &body)
    };
    reads_bytes(with(&[0, 1, 2, 64, 65, 66]), &[1, 3, 1]);
    reads_bytes(with(&[2, 64]), &[1, 3, 1]);
    reads_bytes(with(&[0, 0]), &[0, 24, 21]);
    reads_bytes(with(&[64, 2]), &[0, 24, 21]);
    for literal in [3, 47, 48, 63, 67, 111, 112, 128, 129, 255] {
        reads_bytes(with(&[literal]), &[0, 23, 17]);
        // Declared comes before rising.
        reads_bytes(with(&[66, literal]), &[0, 23, 21]);
    }
}

fn formula_lengths_0_1_1024_1025(version: &Version) {
    let with = |length: u16, bytes: usize| {
        let mut body = vec![1, 0];
        body.extend(length.to_be_bytes());
        body.extend(vec![0; bytes]);
        encode::block(version, &body)
    };
    reads_bytes(with(0, 0), &[0, 17, 7]);
    reads_bytes(with(1_025, 1_025), &[0, 17, 7]);
    reads_bytes(with(u16::MAX, 0), &[0, 17, 7]);
    // Stated and not there; there, and complete after one byte.
    reads_bytes(with(1_024, 1_023), &[0, 14, 1_032]);
    reads_bytes(with(1_024, 1_024), &[0, 21, 10]);
    for size in [1, 2, 3, 4, 5, 255, 256, 257, 258, 259, 260, 1_023, 1_024] {
        let mut problem = plain(version, 1, 0);
        problem.goal = formula_of_size(size);
        assert_eq!(encode::bare(&problem.goal).len(), size);
        reads(&problem, &[1, 1, 0]);
    }
}

fn depth_8_9(version: &Version) {
    let mut problem = plain(version, 1, 0);
    problem.initial = nested(8);
    reads(&problem, &[1, 1, 0]);
    problem.goal = nested(8);
    reads(&problem, &[1, 1, 0]);
    problem.initial = nested(9);
    reads(&problem, &[0, 19, 9 + 16]);
}

fn what_comes_first_at_a_group_mark(version: &Version) {
    // Eight marks that alternate and then these bytes, in the initial formula.
    let with = |tail: &[u8]| {
        let mut bytes: Vec<u8> = (0..8).flat_map(|i| [0x80 | (i & 1), 2]).collect();
        bytes.extend(tail);
        let mut body = vec![1, 0, 0, bytes.len() as u8];
        body.extend(bytes);
        encode::block(version, &body)
    };
    // A repeated kind is 18 also where it is too deep; too deep is 19 also
    // where its count is missing; and 20 is the first byte after them all.
    reads_bytes(with(&[0x81]), &[0, 18, 25]);
    reads_bytes(with(&[0x80]), &[0, 19, 25]);
    reads_bytes(with(&[0x80, 0]), &[0, 19, 25]);
    reads_bytes(with(&[]), &[0, 20, 25]);
    reads_bytes(with(&[0]), &[0, 20, 26]);
    reads_bytes(with(&[0, 1]), &[0, 18, 26]);
    reads_bytes(with(&[0, 0]), &[0, 20, 27]);
}

fn formula_bytes_that_are_not_allowed(version: &Version) {
    let with = |bytes: &[u8]| {
        let mut body = vec![3, 0, 0, bytes.len() as u8];
        body.extend(bytes);
        body.extend([0, 1, 0]);
        encode::block(version, &body)
    };
    for byte in 0..=255 {
        let named: &[u64] = match byte {
            0..=2 | 64..=66 => &[1, 3, 0],
            0x80 | 0x81 => &[0, 20, 10],
            _ => &[0, 18, 9],
        };
        reads_bytes(with(&[byte]), named);
    }
    reads_bytes(with(&[0x80, 0]), &[1, 3, 0]);
    reads_bytes(with(&[0x80, 255]), &[0, 20, 11]);
    reads_bytes(with(&[0x80, 1, 0x80, 0]), &[0, 18, 11]);
    reads_bytes(with(&[0x80, 2, 0x81, 0, 0x80, 0]), &[0, 18, 13]);
    reads_bytes(with(&[0x80, 2, 0x81, 1, 0x80, 0, 1]), &[1, 3, 0]);
    reads_bytes(with(&[0x80, 1, 0, 1]), &[0, 21, 12]);
    reads_bytes(with(&[0x80, 0, 1]), &[0, 21, 11]);
}

/// With as many facts as there can be: in version 2 every byte below the marks is a
/// literal.
fn literals_of_the_most_facts(version: &Version) {
    let facts = version.most_facts;
    let formula = |byte: u8| {
        let body = [facts, 0, 0, 1, byte, 0, 1, 0];
        encode::block(version, &body)
    };
    let effect = |byte: u8| {
        let body = [facts, 1, 0, 1, 0, 0, 1, 0, 0, 1, 0, 1, byte, 0, 1, 0];
        encode::block(version, &body)
    };
    for byte in 0..=255 {
        let declared = byte < facts || (DENIAL..DENIAL + facts).contains(&byte);
        match byte {
            _ if declared => reads_bytes(formula(byte), &[1, facts.into(), 0]),
            0x80 | 0x81 => reads_bytes(formula(byte), &[0, 20, 10]),
            _ => reads_bytes(formula(byte), &[0, 18, 9]),
        }
        let named = match declared {
            true => [1, facts.into(), 1],
            false => [0, 23, 17],
        };
        reads_bytes(effect(byte), &named);
    }
    let literals =
        (0..=255).filter(|byte| *byte < facts || (DENIAL..DENIAL + facts).contains(byte));
    assert_eq!(literals.count(), version.most_effects.into());
}

fn a_problem_cut_anywhere_ends_inside_a_field(version: &Version) {
    let whole = trial::problem(version);
    for length in 0..whole.len() {
        let cut = whole[..length].to_vec();
        let named = [
            0,
            if length < 5 { 11 } else { 13 },
            if length < 5 { length as u64 } else { 1 },
        ];
        reads_bytes(cut.clone(), &named);
        if length >= 5 {
            reads_bytes(encode::block(version, &cut[5..]), &[0, 14, length as u64]);
        }
    }
    let mut more = whole;
    more.push(0);
    reads_bytes(more.clone(), &[0, 13, 1]);
    encode::mend(&mut more);
    reads_bytes(more, &[0, 25, 37]);
}

fn nothing_past_a_length_is_read(version: &Version) {
    for (length, bytes) in ended_early(&trial::problem(version)) {
        let answer = raw::read_problem(&bytes[..length]).word;
        assert_eq!(answer, words(&[0, 14, length as u64]));
    }
}

fn problem_of_32768_and_32769_bytes(version: &Version) {
    let (problem, _) = longest(version);
    let bytes = encode::problem(&problem);
    assert_eq!(bytes.len(), 32_768);
    reads_bytes(bytes, &[1, 1, problem.actions.len() as u64]);

    let bytes = encode::problem(&problem_of_size(version, 32_769));
    assert_eq!(bytes.len(), 32_769);
    reads_bytes(bytes, &[0, 10, 32_768]);
    // Too long comes first of all.
    reads_bytes(vec![9; 32_769], &[0, 10, 32_768]);
    reads_bytes(vec![9; 200_000], &[0, 10, 32_768]);
    reads_bytes(vec![9; 32_768], &[0, 12, 0]);
}
