//! The facts that a reached run rests on, beside plain Rust, and where few of its states
//! are kept.

use std::cell::RefCell;
use std::hint::black_box;

use conformance::families::store::Store;
use conformance::oracle::Task;
use conformance::version::{MOST_STEPS, VERSION_1};
use larkhammock::{raw, LONGEST_SPARSE_WORK, LONGEST_WORK};

use crate::figure::{agreed, Figure};
use crate::judges::Judges;
use crate::page::{nanoseconds, whole, Part, Table};
use crate::plain::relevance::relevant_facts;
use crate::problems::{self, Measured};
use crate::ratios::Ratios;
use crate::timing::times;

/// Each with a state in which everything is as far away as can be: all carriages
/// in the last aisle and loaded, the robot in the last corner, every package a
/// bomb.
fn runs() -> Vec<(Measured, u64)> {
    let far_store = |carriages: u8, aisles: u8| {
        let places = (1..=carriages).map(move |c| c * aisles - 1);
        let loads = carriages * aisles..carriages * (aisles + 1);
        state(places.chain(loads))
    };
    vec![
        (problems::store(6, 4), far_store(6, 4)),
        (problems::grid(16), state([15, 31])),
        (problems::bombs(46), state(0..46)),
        (over_and_over(12, 3), far_store(12, 3)),
    ]
}

/// The state in which these facts are true.
fn state(facts: impl IntoIterator<Item = u8>) -> u64 {
    facts.into_iter().map(|fact| VERSION_1.bit(fact)).sum()
}

/// The longest plan: the store's own as often as there is room, and before it one
/// carriage is unloaded until no step is left.
fn over_and_over(carriages: u8, aisles: u8) -> Measured {
    let store = Store { carriages, aisles };
    let plan = store.plan();
    let mut steps = vec![store.unload(0); MOST_STEPS % plan.len()];
    steps.extend(plan.repeat(MOST_STEPS / plan.len()));
    let name = format!("store {carriages}×{aisles}, over and over");
    Measured::new(name, store.problem(), steps)
}

/// The times of the library, of plain Rust and of the library with few states, which
/// must agree.
fn measure(measured: &Measured, state: u64) -> [f64; 3] {
    let Measured { problem, plan, .. } = measured;
    let work = RefCell::new([0; LONGEST_WORK]);
    let few = RefCell::new([0; LONGEST_SPARSE_WORK]);
    let ours = |inputs: &[&[u8]]| {
        let work = &mut *work.borrow_mut();
        raw::relevant_facts(inputs[0], inputs[1], state, work).word
    };
    let plain = |inputs: &[&[u8]]| {
        let work = &mut *work.borrow_mut();
        relevant_facts(inputs[0], inputs[1], state, work)
    };
    let sparse = |inputs: &[&[u8]]| {
        let few = &mut *few.borrow_mut();
        raw::relevant_facts_sparse(inputs[0], inputs[1], state, few).word
    };
    let inputs: [&[u8]; 2] = [problem, plan];
    let answer = ours(&inputs);
    let [tag, set, ..] = answer;
    assert_eq!((tag, Ok(set)), (1, plain(&inputs)), "{}", measured.name);
    assert_eq!(sparse(&inputs), answer, "{}", measured.name);

    let ours = |inputs: &[&[u8]]| {
        black_box(ours(inputs));
    };
    let plain = |inputs: &[&[u8]]| {
        let _ = black_box(plain(inputs));
    };
    let sparse = |inputs: &[&[u8]]| {
        black_box(sparse(inputs));
    };
    times(&inputs, [&ours, &plain, &sparse])
}

pub fn section(_: &mut Judges) -> Part {
    let runs = runs();
    let figures = agreed(&runs, |(measured, state)| measure(measured, *state));
    let rows: Vec<Row> = runs.iter().map(|(m, _)| m).zip(figures).collect();
    let (beside_plain, fewer) = (beside_plain(&rows), fewer_states(&rows));
    Part::text(format!("{ABOUT}{beside_plain}{ABOUT_FEWER}{fewer}"))
}

/// A run with the times of the library, of plain Rust and of the library with few states.
type Row<'a> = (&'a Measured, [Figure; 3]);

fn beside_plain(rows: &[Row]) -> String {
    let mut ratios = Ratios::new("ours / plain");
    let mut table = Table::new(&[
        "problem",
        "facts",
        "steps",
        "ours",
        "plain",
        "ours, a step",
        "plain, a step",
        ratios.name,
    ]);
    for (measured, [ours, plain, _]) in rows {
        let step = |figure: Figure| figure.each(measured.steps.len() as f64).show(nanoseconds);
        table.row(&[
            measured.name.clone(),
            measured.tree.facts.to_string(),
            measured.steps.len().to_string(),
            ours.show(nanoseconds),
            plain.show(nanoseconds),
            step(*ours),
            step(*plain),
            ratios.cell(&measured.name, *ours, *plain),
        ]);
    }
    table.finish() + &ratios.summary()
}

fn fewer_states(rows: &[Row]) -> String {
    let mut ratios = Ratios::new("few / every");
    let mut table = Table::new(&[
        "problem",
        "steps",
        "bytes, every state",
        "bytes, few",
        "every state",
        "few",
        ratios.name,
    ]);
    for (measured, [every, _, few]) in rows {
        let task = Task::parse(&measured.problem, &measured.plan).expect("both are sound");
        table.row(&[
            measured.name.clone(),
            measured.steps.len().to_string(),
            whole(task.work_bytes() as u64),
            whole(task.sparse_work_bytes() as u64),
            every.show(nanoseconds),
            few.show(nanoseconds),
            ratios.cell(&measured.name, *few, *every),
        ]);
    }
    table.finish() + &ratios.summary()
}

const ABOUT: &str = "
## Relevant facts, beside plain Rust

Nanoseconds a call and a step of telling which start facts a reached run rests on, reading and the states of the run included:
`larkhammock_relevant_facts` of the proved archive (ours), and one written for speed in Rust (`rust/bench/src/plain/relevance.rs`), which
refuses alike, gives the same answers and fills the work area alike, with a word a state, a word a set, and each action taken apart once.
";

const ABOUT_FEWER: &str = "
### From fewer rows

The same runs told by `larkhammock_relevant_facts_sparse`, which keeps every 16th state of a run and 16 rows for the stretch at hand (few), beside
`larkhammock_relevant_facts`, which keeps every state: the bytes of their work areas, and nanoseconds a call. It has to run each stretch twice.
";
