//! Set and clear conditions beside each other, worked out by hand: what carries,
//! what stays open, and what a list may claim.

use crate::cases::apart::{self, Right};
use crate::support::Library;
use conformance::encode;
use conformance::harness::Operation::{FollowList, Judge, Run, WriteList};
use conformance::harness::{expect, Case};
use conformance::model::Line;
use conformance::oracle::holds;
use conformance::version::Version;
use larkhammock::Verdict;

fn case_of(row: &Right) -> Case {
    // It is shown where the test fails.
    println!("{}", row.name);
    Case {
        problem: encode::problem(&row.problem),
        plan: encode::plan(&row.steps),
        grant: u64::MAX,
        room: row.problem.version.most_bytes(),
        ..Case::default()
    }
}

fn row(version: &Version, name: &str) -> Right {
    let mut rows = apart::all(version).into_iter();
    rows.find(|row| row.name == name).expect("it is a row")
}

/// The list block of lines as the desk program prints them.
fn block<Text: AsRef<str>>(version: &Version, lines: &[Text]) -> Vec<u8> {
    let line = |text: &Text| {
        let (kind, marks) = text.as_ref().split_once(' ').expect("a kind and marks");
        let fixed: Vec<bool> = marks
            .chars()
            .take_while(|mark| *mark != '?')
            .map(|mark| mark == '1')
            .collect();
        Line {
            kind: u8::from(kind == "carries"),
            k: fixed.len() as u8,
            value: version.number(&fixed),
        }
    };
    let lines: Vec<Line> = lines.iter().map(line).collect();
    encode::list(version, &lines)
}

of_each_version! {
    the_judge_counts_what_an_unknown_conflict_costs,
    the_list_is_written_and_followed,
    a_line_that_leaves_a_conflict_unknown_is_refused,
    no_start_state_is_blocked,
    other_states_may_be_blocked,
}

fn the_judge_counts_what_an_unknown_conflict_costs(version: &Version) {
    for row in apart::all(version) {
        let case = case_of(&row);
        let lines = row.list.len() as u64;
        let visits = 2 * lines - 1;
        expect(&Library, Judge, &case, &[1, visits, lines]);
        let grant = visits - 1;
        let short = Case {
            grant,
            ..case.clone()
        };
        expect(&Library, Judge, &short, &[3, grant]);
        let right = Verdict::Right { lines, visits };
        let judged = larkhammock::judge(&case.problem, &case.plan, visits);
        assert_eq!(judged, Ok(right));
    }
}

fn the_list_is_written_and_followed(version: &Version) {
    for row in apart::all(version) {
        let case = case_of(&row);
        let list = block(version, &row.list);
        expect(&Library, WriteList, &case, &[1, list.len() as u64]);
        let mut out = vec![0; list.len()];
        let length = larkhammock::write_list(&case.problem, &case.plan, u64::MAX, &mut out);
        assert_eq!(length, Ok(list.len()));
        assert_eq!(out, list);
        let written = Case { list, ..case };
        expect(&Library, FollowList, &written, &[1, row.list.len() as u64]);
    }
}

fn a_line_that_leaves_a_conflict_unknown_is_refused(version: &Version) {
    let refused = |name: &str, list: Vec<u8>, line: u64| {
        let case = case_of(&row(version, name));
        expect(&Library, FollowList, &Case { list, ..case }, &[0, 69, line]);
    };
    let carries = |cases: &[&str]| {
        let lines: Vec<String> = cases.iter().map(|case| format!("carries {case}")).collect();
        block(version, &lines)
    };
    refused("copy", carries(&["??"]), 0);
    refused("copy-the-last", carries(&["000", "001", "01?", "1??"]), 2);
    refused("half", carries(&["00?", "01?", "10?", "11?"]), 1);
    refused("unknown-by-a-step", carries(&["0??", "1??"]), 0);
    refused("copies", carries(&["???"]), 0);
    refused("elsewhere", carries(&["0??", "1??"]), 1);
    refused("set-always", carries(&["??"]), 0);

    let mut lines = row(version, "copy-of-all").list;
    let fixed = usize::from(version.most_facts - 2);
    lines.truncate(fixed);
    lines.push(format!("carries {}??", "1".repeat(fixed)));
    refused("copy-of-all", block(version, &lines), fixed as u64);
}

/// Every start state is run to its end, be the fact true or false before.
fn no_start_state_is_blocked(version: &Version) {
    for row in apart::all(version)
        .into_iter()
        .filter(|row| row.problem.facts < 4)
    {
        let unused = version.width - u32::from(row.problem.facts);
        for state in (0..1u64 << row.problem.facts).map(|n| n << unused) {
            let values = version.values(state, row.problem.facts);
            if holds(&row.problem.initial, &values) {
                let case = case_of(&row);
                expect(&Library, Run, &Case { state, ..case }, &[1]);
            }
        }
    }
}

/// A state that is no start may be blocked, and the plan is right all the same.
fn other_states_may_be_blocked(version: &Version) {
    let blocked = |name: &str, values: &[bool], fact: u64| {
        let state = version.number(values);
        let case = case_of(&row(version, name));
        expect(&Library, Run, &Case { state, ..case }, &[3, 0, 1, fact]);
    };
    blocked("elsewhere", &[true, true, false], 2);
    blocked("elsewhere", &[true, true, true], 2);
    blocked("set-always", &[true, false], 1);
    blocked("set-always", &[true, true], 1);
}
