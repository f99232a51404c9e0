//! Reading a problem, beside plain Rust.

use std::hint::black_box;

use conformance::model::Formula;
use conformance::version::MOST_PROBLEM_BYTES;
use larkhammock::{Counts, Version};

use crate::figure::agreed;
use crate::page::{nanoseconds, speed, whole, Table};
use crate::plain;
use crate::problems::{bombs, grid, store, Full, Measured};
use crate::ratios::Ratios;
use crate::timing::times;

/// A problem of the greatest length.
fn longest() -> Measured {
    let full = Full {
        facts: 48,
        actions: 64,
        members: 200,
        group: Formula::any,
    };
    full.of_length("the longest", MOST_PROBLEM_BYTES)
}

/// The times of the library and of plain Rust, which must agree.
fn measure(measured: &Measured) -> [f64; 2] {
    let problem = &measured.problem;
    let (facts, actions) = plain::read::read_problem(problem).expect("the problem is sound");
    let counts = Counts {
        version: Version::V1,
        facts: facts.into(),
        actions: actions.into(),
    };
    assert_eq!(larkhammock::read_problem(problem), Ok(counts));
    let ours = |inputs: &[&[u8]]| {
        let _ = black_box(larkhammock::read_problem(inputs[0]));
    };
    let plain = |inputs: &[&[u8]]| {
        let _ = black_box(plain::read::read_problem(inputs[0]));
    };
    times(&[problem], [&ours, &plain])
}

/// The table, and what follows from it.
pub fn table() -> String {
    let mut ratios = Ratios::new("ours / plain");
    let mut table = Table::new(&[
        "problem",
        "bytes",
        "ours",
        "plain",
        "ours, MB/s",
        "plain, MB/s",
        ratios.name,
    ]);
    let problems = [store(6, 4), bombs(46), grid(16), longest()];
    for (measured, [ours, plain]) in problems.iter().zip(agreed(&problems, measure)) {
        let bytes = measured.problem.len();
        table.row(&[
            measured.name.clone(),
            whole(bytes as u64),
            ours.show(nanoseconds),
            plain.show(nanoseconds),
            speed(bytes, ours.least),
            speed(bytes, plain.least),
            ratios.cell(&measured.name, ours, plain),
        ]);
    }
    format!("{ABOUT}{}{}", table.finish(), ratios.summary())
}

const ABOUT: &str = "
Nanoseconds of reading a problem: `larkhammock_read_problem` of the proved archive (ours), and the reading that all of plain Rust above
has (`rust/bench/src/plain/read.rs`). Both go over each byte once, note where the formulas and the actions stand, refuse alike and answer
with the numbers of facts and actions.
";
