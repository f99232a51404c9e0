//! Writing the list.

use conformance::harness::Case;
use conformance::harness::Operation::WriteList;
use conformance::version::Version;

use super::problems::{of_a_line_too_many, of_most_lines, right_after_31, wrong_after_6};
use super::{case_of, expect};

/// Writes into a buffer of this length.
#[track_caller]
fn writes(case: &Case, room: usize, named: &[u64]) {
    let case = Case {
        room,
        ..case.clone()
    };
    expect(WriteList, &case, named);
}

of_each_version! {
    lists_of_the_most_lines_and_one_more,
    grants_below_the_visits,
}

fn lists_of_the_most_lines_and_one_more(version: &Version) {
    let (lines, bytes) = match version.byte {
        1 => (8_191, 65_533),
        _ => (6_553, 65_535),
    };
    let too_many = case_of(&of_a_line_too_many(version), &[]);
    writes(&too_many, bytes, &[0, 52, lines + 1]);
    writes(&too_many, 100_000, &[0, 52, lines + 1]);
    // Too many lines comes before too short a buffer.
    writes(&too_many, 0, &[0, 52, lines + 1]);

    let case = case_of(&of_most_lines(version), &[]);
    writes(&case, bytes - 1, &[0, 53, lines]);
    writes(&case, bytes, &[1, bytes as u64]);
    writes(&case, 70_000, &[1, bytes as u64]);
}

fn grants_below_the_visits(version: &Version) {
    for (problem, visits) in [(right_after_31(version), 31), (wrong_after_6(version), 6)] {
        for grant in 0..visits {
            let case = Case {
                grant,
                ..case_of(&problem, &[])
            };
            expect(WriteList, &case, &[0, 50, grant]);
        }
    }
}
