//! The end of the cover is a running value.

use std::hint::black_box;

use crate::support::Library;
use crate::timing::ratio;
use conformance::encode;
use conformance::families::idle;
use conformance::gen::{cover, even_cover, refined, task, Rng};
use conformance::harness::{check, Case, Operation};
use conformance::model::Line;
use conformance::oracle::Task;
use conformance::version::Version;
use larkhammock::{raw, Refusal};

of_each_version! {
    six_thousand_lines_and_their_first_three_thousand,
    adding_up_again_takes_more_than_three_times_as_long,
    the_next_line_begins_at_the_end_of_what_is_covered,
}

/// "In a test with the empty plan, following 6,000 sound lines takes at most
/// three times as long as their first 3,000."
fn six_thousand_lines_and_their_first_three_thousand(version: &Version) {
    let problem = encode::problem(&idle(*version, 13));
    let plan = encode::plan(&[]);
    let lines = even_cover(version, 6_000);
    let whole = encode::list(version, &lines);
    let half = encode::list(version, &lines[..3_000]);
    let follow = |list: &[u8]| larkhammock::follow_list(&problem, &plan, list);
    let short = Refusal {
        number: 70,
        place: 3_000,
    };
    assert_eq!(follow(&whole), Ok(6_000));
    assert_eq!(follow(&half), Err(short));

    let following = |list: &[u8]| {
        let _ = black_box(follow(black_box(list)));
    };
    let ratio = ratio(2_000, [&|| following(&whole), &|| following(&half)]);
    assert!(ratio <= 3.0, "{ratio} times as long");
}

/// Whether each line begins where those before it end, which is added up again
/// at every line, one by one.
fn adds_up_again(version: &Version, lines: &[Line]) -> bool {
    lines.iter().enumerate().all(|(i, line)| {
        let covered = lines[..i]
            .iter()
            .map(|line| black_box(version.covered(line.k)));
        u128::from(line.value) == covered.sum()
    })
}

/// What the test above is to catch, it would: four times as long.
fn adding_up_again_takes_more_than_three_times_as_long(version: &Version) {
    let lines = even_cover(version, 6_000);
    assert!(adds_up_again(version, &lines));
    let adding = |lines: &[Line]| {
        black_box(adds_up_again(version, black_box(lines)));
    };
    let ratio = ratio(15, [&|| adding(&lines), &|| adding(&lines[..3_000])]);
    assert!(ratio > 3.0, "{ratio} times as long");
}

/// The number of a state of so many facts, the lowest being 0.
fn number(version: &Version, facts: u8, state: usize) -> u64 {
    (state as u64) << (version.width - u32::from(facts))
}

/// How often each state of so many facts is covered by the lines, which are
/// sound.
fn times_covered(version: &Version, facts: u8, lines: &[Line]) -> Vec<u32> {
    let covers = |line: &Line, state| {
        let number = u128::from(number(version, facts, state));
        let begin = u128::from(line.value);
        (begin..begin + version.covered(line.k)).contains(&number)
    };
    (0..1 << facts)
        .map(|state| lines.iter().filter(|line| covers(line, state)).count() as u32)
        .collect()
}

/// A task of few facts, and lines that cover all its states: where the plan is
/// wrong, some of them claim what is not so.
fn covered_task(rng: &mut Rng, version: &Version) -> (Task, Vec<Line>) {
    loop {
        let task = task(rng, version);
        if task.problem.facts <= 5 {
            let lines = cover(&task);
            let lines = refined(rng, &task, &lines);
            return (task, lines);
        }
    }
}

/// A line that begins at the end of what the lines cover is in its place, and at
/// any other state is not.
fn next_line_begins_at(end: usize, task: &Task, case: &Case, lines: &[Line]) {
    let k = task.problem.facts;
    for state in 0..1 << k {
        let next = Line {
            kind: 1,
            k,
            value: number(&task.problem.version, k, state),
        };
        let list = encode::list(&task.problem.version, &[lines, &[next]].concat());
        let answer = raw::follow_list(&case.problem, &case.plan, &list).word;
        let elsewhere = answer[..3] == [0, 68, lines.len() as u64];
        assert_eq!(elsewhere, state != end, "{answer:?}");
    }
}

/// Whatever the lines, and however many of them are without a fault: the states
/// that these cover are those up to some end, each covered once, and that end is
/// where the next line has to begin.
fn the_next_line_begins_at_the_end_of_what_is_covered(version: &Version) {
    let mut rng = Rng::new(0xc0e4);
    let (mut prefixes, mut full, mut faulty) = (0, 0, 0);
    for _ in 0..800 {
        let (task, all) = covered_task(&mut rng, version);
        let mut case = Case {
            problem: encode::problem(&task.problem),
            plan: encode::plan(&task.plan),
            ..Case::default()
        };
        for count in 0..=all.len() {
            let lines = &all[..count];
            case.list = encode::list(version, lines);
            let answer = check(&Library, Operation::FollowList, &case).expect("as the oracle does");
            if answer[..2] == [0, 69] {
                faulty += 1;
                break;
            }
            let times = times_covered(version, task.problem.facts, lines);
            let end = times.iter().filter(|times| **times > 0).count();
            assert!(times[..end].iter().all(|times| *times == 1));
            let passes = end == times.len();
            let count = count as u64;
            let named = if passes {
                [1, count, 0]
            } else {
                [0, 70, count]
            };
            assert_eq!(answer[..3], named);
            next_line_begins_at(end, &task, &case, lines);
            prefixes += 1;
            full += u32::from(passes);
        }
    }
    assert!(prefixes > 2_000, "{prefixes} prefixes");
    assert!(full > 200, "{full} full covers");
    assert!(faulty > 200, "{faulty} lists with a false claim");
}
