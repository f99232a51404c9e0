//! Following a list and reading a problem, beside plain Rust.

use std::hint::black_box;

use conformance::encode;
use conformance::families::idle;
use conformance::gen::even_cover;
use conformance::version::{Version, VERSION_1};
use larkhammock::LONGEST_LIST;

use crate::figure::{agreed, Figure};
use crate::judges::Judges;
use crate::lengths;
use crate::page::{nanoseconds, whole, Part, Table};
use crate::plain::follow::{follow_list, follow_list_by_64};
use crate::problems::{bombs, grid, store, Measured};
use crate::ratios::Ratios;
use crate::read;
use crate::timing::times;

/// A list that passes.
pub struct Passing {
    pub measured: Measured,
    pub list: Vec<u8>,
}

/// The longest list there is, of cases all of which carry the plan.
pub fn longest(measured: Measured) -> Passing {
    let version = &measured.tree.version;
    let list = first(version, version.most_lines);
    Passing { measured, list }
}

/// The block of the first so many lines of the longest list.
pub fn first(version: &Version, lines: usize) -> Vec<u8> {
    let all = even_cover(version, version.most_lines);
    encode::list(version, &all[..lines])
}

/// The list that the library writes.
pub fn own(measured: Measured) -> Passing {
    let Measured { problem, plan, .. } = &measured;
    let mut list = vec![0; LONGEST_LIST];
    let length = larkhammock::write_list(problem, plan, u64::MAX, &mut list);
    list.truncate(length.expect("the plan is right, and its list short enough"));
    Passing { measured, list }
}

/// Every case carries the empty plan.
pub fn empty_plan() -> Measured {
    Measured::new("empty plan", idle(VERSION_1, 13), Vec::new())
}

/// The lines of the list, which all must count alike.
pub fn lines(passing: &Passing) -> u64 {
    let Passing { measured, list } = passing;
    let Measured { problem, plan, .. } = measured;
    let ours = larkhammock::follow_list(problem, plan, list).expect("the list passes");
    for follow in [follow_list, follow_list_by_64] {
        assert_eq!(follow(problem, plan, list), Ok(ours as usize));
    }
    ours
}

pub fn ours(inputs: &[&[u8]]) {
    let _ = black_box(larkhammock::follow_list(inputs[0], inputs[1], inputs[2]));
}

pub fn plain(inputs: &[&[u8]]) {
    let _ = black_box(follow_list(inputs[0], inputs[1], inputs[2]));
}

fn plain_by_64(inputs: &[&[u8]]) {
    let _ = black_box(follow_list_by_64(inputs[0], inputs[1], inputs[2]));
}

/// What is followed.
fn lists() -> [Passing; 4] {
    [
        longest(empty_plan()),
        longest(bombs(46)),
        own(store(5, 4)),
        own(grid(16)),
    ]
}

pub fn measure(Passing { measured, list }: &Passing) -> [f64; 3] {
    let Measured { problem, plan, .. } = measured;
    times(&[problem, plan, list], [&ours, &plain, &plain_by_64])
}

/// Whole lists, beside plain Rust.
fn table() -> String {
    let mut by_line = Ratios::new("ours / by line");
    let mut by_64 = Ratios::new("ours / by 64");
    let mut table = Table::new(&[
        "list",
        "steps",
        "lines",
        "ours",
        "by line",
        "by 64",
        by_line.name,
        by_64.name,
    ]);
    let lists = lists();
    for (passing, [ours, plain, plain_by_64]) in lists.iter().zip(agreed(&lists, measure)) {
        let name = &passing.measured.name;
        let lines = lines(passing);
        let line = |figure: Figure| figure.each(lines as f64).show(nanoseconds);
        table.row(&[
            name.clone(),
            passing.measured.steps.len().to_string(),
            whole(lines),
            line(ours),
            line(plain),
            line(plain_by_64),
            by_line.cell(name, ours, plain),
            by_64.cell(name, ours, plain_by_64),
        ]);
    }
    table.finish() + &by_line.summary() + &by_64.summary()
}

pub fn section(_: &mut Judges) -> Part {
    let lengths = lengths::part();
    let text = [ABOUT, &table(), &lengths.text, &read::table()];
    Part {
        text: text.concat(),
        plots: lengths.plots,
    }
}

const ABOUT: &str = "
## Follow and read

Nanoseconds a line of whole calls, reading included: `larkhammock_follow_list` of the proved archive (ours), and two followers by hand in
Rust (`rust/bench/src/plain/follow.rs`) on the planes of the judge above, which refuse alike and give the same answers. One goes by line: it
looks at each line's case in turn, as ours does. The other goes by 64: it puts the cases of 64 lines into the lanes of one look. The first two
lists are of 8,191 lines, the longest there is, all of which carry; the others are those that the library writes.
";
