//! The search among short plans, beside plain Rust.

use std::hint::black_box;

use larkhammock::raw;

use crate::figure::{agreed, Figure};
use crate::judges::Judges;
use crate::page::{nanoseconds, time, whole, Part, Table};
use crate::plain::search::{search_plans, Search};
use crate::problems::{self, Measured};
use crate::ratios::Ratios;
use crate::timing::times;

/// Each with a longest length up to which no plan is right, so that all are tried.
fn searches() -> Vec<(Measured, u64)> {
    vec![
        (problems::sorting(5), 4),
        (problems::sorting(8), 4),
        (problems::sorting(9), 4),
        (problems::store(3, 3), 4),
        (problems::store(4, 3), 4),
        (problems::store(6, 4), 4),
        (problems::bombs(30), 3),
        (problems::bombs(46), 3),
    ]
}

fn plans(actions: usize, longest: u64) -> u64 {
    (0..=longest as u32)
        .map(|length| (actions as u64).pow(length))
        .sum()
}

/// The visits of all plans, of which the library and plain Rust must agree.
fn visits(measured: &Measured, longest: u64) -> u64 {
    let [tag, visits, ..] = raw::search_plans(&measured.problem, longest, u64::MAX).word;
    let plain = search_plans(&measured.problem, longest, u64::MAX);
    let none = Ok(Search::NoneRight { visits });
    assert_eq!((tag, none), (2, plain), "{}", measured.name);
    visits
}

/// The times of the library and of plain Rust.
fn measure(measured: &Measured, longest: u64) -> [f64; 2] {
    let ours = |inputs: &[&[u8]]| {
        black_box(raw::search_plans(inputs[0], longest, u64::MAX));
    };
    let plain = |inputs: &[&[u8]]| {
        let _ = black_box(search_plans(inputs[0], longest, u64::MAX));
    };
    times(&[&measured.problem], [&ours, &plain])
}

pub fn section(_: &mut Judges) -> Part {
    let mut ratios = Ratios::new("ours / plain");
    let mut table = Table::new(&[
        "problem",
        "facts",
        "actions",
        "longest",
        "plans",
        "visits a plan",
        "ours",
        "ours, a plan",
        "plain, a plan",
        ratios.name,
    ]);
    let searches = searches();
    let figures = agreed(&searches, |(measured, longest)| measure(measured, *longest));
    for ((measured, longest), [ours, plain]) in searches.iter().zip(figures) {
        let visits = visits(measured, *longest);
        let actions = measured.tree.actions.len();
        let plans = plans(actions, *longest);
        let plan = |figure: Figure| figure.each(plans as f64).show(nanoseconds);
        table.row(&[
            measured.name.clone(),
            measured.tree.facts.to_string(),
            actions.to_string(),
            longest.to_string(),
            whole(plans),
            format!("{:.1}", visits as f64 / plans as f64),
            ours.show(time),
            plan(ours),
            plan(plain),
            ratios.cell(&measured.name, ours, plain),
        ]);
    }
    Part::text(format!("{ABOUT}{}{}", table.finish(), ratios.summary()))
}

const ABOUT: &str = "
## Search, beside plain Rust

Trying every plan up to a length at which none is right yet, so that all of them are judged: the time of a whole call, and
nanoseconds a plan. `larkhammock_search_plans` of the proved archive (ours), and a loop over the same plans in Rust
(`rust/bench/src/plain/search.rs`), which reads the problem once, walks each plan as the judge on planes above does, refuses alike and gives
the same answers.
";
