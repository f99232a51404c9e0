//! The example program `search`, on the files of `examples/`.

mod program;

use program::refuses_arguments;

#[track_caller]
fn prints(arguments: &[&str], line: &str) {
    program::prints("search", arguments, line);
}

const PROBLEM: &str = "../examples/small-store/problem";

/// As the page of the example has it.
#[test]
fn it_finds_the_plan_of_the_small_store() {
    prints(&[PROBLEM, "3"], "none visited 2400");
    prints(&[PROBLEM, "4"], "found 4 0 5 3 visited 10727");
}

#[test]
fn it_says_where_the_grant_ends_and_what_is_refused() {
    prints(&[PROBLEM, "4", "10727"], "found 4 0 5 3 visited 10727");
    prints(&[PROBLEM, "4", "10726"], "undecided 4 0 5 3 visited 10726");
    prints(&[PROBLEM, "4", "0"], "undecided visited 0");
    let refused = "refused 43 at 0: the longest length is over 4";
    prints(&[PROBLEM, "5"], refused);
}

#[test]
fn it_wants_a_problem_and_a_length() {
    for arguments in [
        &[][..],
        &[PROBLEM],
        &[PROBLEM, "four"],
        &["no such file", "4"],
    ] {
        refuses_arguments("search", arguments);
    }
}
