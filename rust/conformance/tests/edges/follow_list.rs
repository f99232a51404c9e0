//! Following a list.

use conformance::answer::words;
use conformance::encode;
use conformance::families::idle;
use conformance::gen::even_cover;
use conformance::harness::Case;
use conformance::harness::Operation::FollowList;
use conformance::model::{Formula, Line};
use conformance::trial::{self, with_plan};
use conformance::version::{Version, VERSION_1, VERSION_2};
use larkhammock::raw;

use super::problems::{of_most_lines, plain};
use super::{case_of, ended_early, expect};

#[track_caller]
fn follows(case: &Case, list: Vec<u8>, named: &[u64]) {
    let case = Case {
        list,
        ..case.clone()
    };
    expect(FollowList, &case, named);
}

fn line(kind: u8, k: u8, value: u64) -> Line {
    Line { kind, k, value }
}

of_each_version! {
    list_headers,
    lists_of_the_other_version,
    nothing_past_a_length_is_read,
    lists_of_the_most_lines_and_one_more,
    what_comes_first_in_a_line,
    a_line_that_carries_is_not_empty,
    an_empty_list,
    a_full_cover_and_one_line_more,
    a_cover_down_to_the_highest_state,
}

fn list_headers(version: &Version) {
    let (most, whole) = match version.byte {
        1 => (65_533, 29),
        _ => (65_535, 35),
    };
    let byte = version.byte;
    let follow = |list: Vec<u8>, named: &[u64]| follows(&with_plan(version, &[0, 1]), list, named);
    for length in 0..5 {
        for first in [0, 1, 2, 3, 9, 255] {
            follow(vec![first; length], &[0, 61, length as u64]);
        }
    }
    for first in [0, 3, 9, 255] {
        follow(vec![first; 5], &[0, 62, 0]);
        follow(vec![first; most], &[0, 62, 0]);
        follow(vec![first; most + 1], &[0, 60, most as u64]);
    }
    follow(vec![byte, 0, 0, 0, 1], &[0, 63, 1]);
    follow(vec![byte; most], &[0, 63, 1]);
    for extra in 1..version.line_bytes {
        let mut list = trial::list(version);
        list.resize(whole + extra, 0);
        follow(list.clone(), &[0, 63, 1]);
        encode::mend(&mut list);
        follow(list, &[0, 64, (whole + extra) as u64]);
    }
}

/// After a version that is none, and before the length field and the lines.
fn lists_of_the_other_version(version: &Version) {
    let other = version.other();
    let follow = |list: Vec<u8>, named: &[u64]| follows(&with_plan(version, &[0, 1]), list, named);
    follow(trial::list(&other), &[0, 71, 0]);
    follow(vec![other.byte, 0, 0, 0, 0], &[0, 71, 0]);
    // 61 comes before.
    follow(vec![other.byte; 4], &[0, 61, 4]);
    // 63 comes after: the length field says too little or too much.
    follow(vec![other.byte, 0, 0, 0, 1], &[0, 71, 0]);
    follow(vec![other.byte; 5], &[0, 71, 0]);
    // 64 and the faults of lines come after.
    for extra in 0..11 {
        follow(encode::block(&other, &vec![9; extra]), &[0, 71, 0]);
    }
    // The size of the problem's version counts, and comes first.
    let [at_most, longer] = [&VERSION_1, &VERSION_2].map(|sized| sized.most_bytes());
    for size in at_most..=longer + 1 {
        let named = match (version.byte, size) {
            (1, 65_533) | (2, 65_533..=65_535) => [0, 71, 0],
            (1, _) => [0, 60, 65_533],
            _ => [0, 60, 65_535],
        };
        follow(vec![other.byte; size], &named);
        follow(encode::block(&other, &vec![0; size - 5]), &named);
    }
    // So does any list that is as long as the other version allows.
    let lines = even_cover(&other, other.most_lines);
    let list = encode::list(&other, &lines);
    let named = match version.byte {
        1 => [0, 60, 65_533],
        _ => [0, 71, 0],
    };
    follow(list, &named);
}

fn nothing_past_a_length_is_read(version: &Version) {
    let case = with_plan(version, &[0, 1]);
    for (length, bytes) in ended_early(&trial::list(version)) {
        let answer = raw::follow_list(&case.problem, &case.plan, &bytes[..length]).word;
        let body = length - 5;
        let named = match body % version.line_bytes {
            0 => [0, 70, (body / version.line_bytes) as u64],
            _ => [0, 64, length as u64],
        };
        assert_eq!(answer, words(&named));
    }
}

fn lists_of_the_most_lines_and_one_more(version: &Version) {
    let (lines, bytes) = match version.byte {
        1 => (8_191, 65_533),
        _ => (6_553, 65_535),
    };
    let visits = 2 * lines - 1;
    let case = case_of(&of_most_lines(version), &[]);
    let mut list = vec![0; bytes];
    let length = larkhammock::write_list(&case.problem, &case.plan, visits, &mut list);
    assert_eq!(length, Ok(bytes));
    follows(&case, list.clone(), &[1, lines]);
    // All but the last line.
    let short = &list[5..bytes - version.line_bytes];
    follows(&case, encode::block(version, short), &[0, 70, lines - 1]);
    // One byte and one line too many.
    let mut more = list.clone();
    more.push(0);
    follows(&case, more.clone(), &[0, 60, bytes as u64]);
    encode::mend(&mut more);
    follows(&case, more, &[0, 60, bytes as u64]);
    let idle = case_of(&idle(*version, 13), &[]);
    let most = even_cover(version, version.most_lines);
    let one_more = even_cover(version, version.most_lines + 1);
    follows(&idle, encode::list(version, &most), &[1, lines]);
    follows(
        &idle,
        encode::list(version, &one_more),
        &[0, 60, bytes as u64],
    );
}

fn what_comes_first_in_a_line(version: &Version) {
    let [bit_1, bit_2, bit_3] = [1, 2, 3].map(|fact| version.bit(fact));
    let past = version.most_facts + 1;
    let follow = |second: Line, named: &[u64]| {
        let list = encode::list(version, &[line(0, 2, 0), second]);
        follows(&with_plan(version, &[0, 1]), list, named);
    };
    follow(line(2, past, 1), &[0, 65, 1]);
    follow(line(255, 255, 1), &[0, 65, 1]);
    follow(line(1, 4, 1), &[0, 66, 1]);
    follow(line(1, past, 1), &[0, 66, 1]);
    follow(line(1, 255, 1), &[0, 66, 1]);
    follow(line(1, 3, 1), &[0, 67, 1]);
    follow(line(1, 3, bit_3), &[0, 67, 1]);
    follow(line(1, 1, bit_1), &[0, 67, 1]);
    follow(line(1, 0, version.bit(0)), &[0, 67, 1]);
    follow(line(0, 3, bit_2), &[0, 68, 1]);
    follow(line(0, 3, bit_1 | bit_2), &[0, 68, 1]);
    follow(line(1, 0, 0), &[0, 68, 1]);
    follow(line(0, 2, bit_1), &[0, 69, 1]);
    follow(line(1, 2, bit_1), &[0, 70, 2]);
}

fn a_line_that_carries_is_not_empty(version: &Version) {
    let mut problem = plain(version, 1, 0);
    problem.initial = Formula::fact(0);
    let follow = |[low, high]: [u8; 2], named: &[u64]| {
        let lines = [line(low, 1, 0), line(high, 1, version.bit(0))];
        follows(
            &case_of(&problem, &[]),
            encode::list(version, &lines),
            named,
        );
    };
    follow([0, 1], &[1, 2]);
    follow([1, 1], &[0, 69, 0]);
    follow([0, 0], &[0, 69, 1]);
}

/// It ends where it begins, and so does a full cover of 64 facts in a word; but it
/// covers nothing.
fn an_empty_list(version: &Version) {
    for facts in [1, 3, version.most_facts] {
        let case = case_of(&plain(version, facts, 0), &[]);
        follows(&case, encode::list(version, &[]), &[0, 70, 0]);
        // Also where no state has to be covered.
        let mut never = plain(version, facts, 0);
        never.initial = Formula::never();
        follows(
            &case_of(&never, &[]),
            encode::list(version, &[]),
            &[0, 70, 0],
        );
    }
}

/// A line after the end is not where it should be, wherever it begins; what is
/// wrong with it by itself comes before that.
fn a_full_cover_and_one_line_more(version: &Version) {
    for facts in [1, 13, version.most_facts - 1, version.most_facts] {
        let case = case_of(&plain(version, facts, 0), &[]);
        let follow = |lines: &[Line], named: &[u64]| {
            follows(&case, encode::list(version, lines), named);
        };
        let last = version.bit(facts - 1);
        let highest = (0..facts).map(|fact| version.bit(fact)).sum();
        for cover in [1, 2].map(|lines| even_cover(version, lines)) {
            let count = cover.len() as u64;
            follow(&cover, &[1, count]);
            let and = |more: Line, number: u64| {
                let lines = [&cover[..], &[more]].concat();
                follow(&lines, &[0, number, count]);
            };
            and(line(1, 0, 0), 68);
            and(line(0, 0, 0), 68);
            and(line(1, 1, 0), 68);
            and(line(1, 1, version.bit(0)), 68);
            and(line(1, facts, 0), 68);
            and(line(1, facts, last), 68);
            and(line(1, facts, highest), 68);
            and(line(2, 0, 0), 65);
            and(line(2, facts + 1, 1), 65);
            and(line(1, facts + 1, 0), 66);
            and(line(1, 255, 1), 66);
            and(line(1, 0, version.bit(0)), 67);
            and(line(1, facts - 1, last), 67);
            // And what comes after that line does not matter.
            let twice = [&cover[..], &cover[..], &cover[..]].concat();
            follow(&twice, &[0, 68, count]);
        }
    }
}

/// Each line is half of what is left, and the last is the highest state alone.
fn a_cover_down_to_the_highest_state(version: &Version) {
    let facts = version.most_facts;
    let case = case_of(&plain(version, facts, 0), &[]);
    let first_ones = |ones: u8| (0..ones).map(|fact| version.bit(fact)).sum();
    let mut lines: Vec<Line> = (0..facts)
        .map(|ones| line(1, ones + 1, first_ones(ones)))
        .collect();
    let all_but_one = lines.clone();
    lines.push(line(1, facts, first_ones(facts)));
    let count = lines.len() as u64;
    follows(&case, encode::list(version, &lines), &[1, count]);
    follows(
        &case,
        encode::list(version, &all_but_one),
        &[0, 70, count - 1],
    );
    lines.push(line(1, facts, 0));
    follows(&case, encode::list(version, &lines), &[0, 68, count]);
    // The last but one doubled: it ends one short of the end.
    let doubled = [&all_but_one[..], &all_but_one[facts as usize - 1..]].concat();
    follows(&case, encode::list(version, &doubled), &[0, 68, count - 1]);
}
