//! What the header promises of the stack is so.

#[macro_use]
#[path = "../../conformance/tests/versions/mod.rs"]
mod versions;

use bench::stack::measured;
use conformance::version::{Version, VERSION_1, VERSION_2};

/// What the header promises of each operation, in KiB, and in its words.
const PROMISED: [(&str, u64, &str); 10] = [
    ("read_problem", 8, "8 KiB to read a problem or a plan"),
    ("read_plan", 8, "8 KiB to read a problem or a plan"),
    ("run", 16, "16 KiB to run a state"),
    ("judge", 32, "32 KiB to judge a plan or to write a list"),
    (
        "write_list",
        32,
        "32 KiB to judge a plan or to write a list",
    ),
    ("follow_list", 24, "24 KiB to follow a list"),
    ("relevant_facts", 48, "48 KiB to tell relevant facts"),
    ("relevant_facts_sparse", 24, "24 KiB to tell them sparsely"),
    ("search_plans", 36, "36 KiB to search plans"),
    ("merge", 12, "12 KiB to merge"),
];

/// The operations that walk down to the last fact.
const WALKS: [&str; 3] = ["judge", "write_list", "search_plans"];

of_each_version! {
    no_call_takes_more_than_the_header_says,
}

fn no_call_takes_more_than_the_header_says(version: &Version) {
    let header = include_str!("../../../include/larkhammock.h").replace("\n * ", " ");
    for (operation, bytes) in measured(version) {
        let promised = PROMISED.iter().find(|(known, ..)| *known == operation);
        let (_, kib, words) = promised.expect("the header says it of each operation");
        assert!(header.contains(words), "{words}");
        assert!(bytes <= kib * 1024, "{operation} takes {bytes} bytes");
    }
}

/// Each five facts more are a call more on the way down: else the measure would not have
/// seen the deepest one.
#[test]
fn a_walk_over_more_facts_takes_more() {
    for ((operation, fewer), (_, more)) in
        measured(&VERSION_1).into_iter().zip(measured(&VERSION_2))
    {
        if WALKS.contains(&operation) {
            assert!(fewer < more, "{operation}: {fewer} bytes, and {more}");
        }
    }
}
