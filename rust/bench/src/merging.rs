//! Merging two halls, beside plain Rust.

use std::cell::RefCell;
use std::hint::black_box;

use conformance::model::Formula;
use conformance::version::{MOST_ACTIONS, MOST_PROBLEM_BYTES, VERSION_2};
use larkhammock::raw;

use crate::figure::{agreed, Figure};
use crate::judges::Judges;
use crate::page::{nanoseconds, ratio, speed, time, whole, Part, Table};
use crate::plain::merge::merge;
use crate::plots::{Axis, Plot, Series};
use crate::problems::{bombs, grid, store, Full, Measured};
use crate::ratios::Ratios;
use crate::timing::times;

/// Two halls, and the bytes of their problem.
struct Halls {
    first: Measured,
    second: Measured,
    bytes: usize,
}

impl Halls {
    /// The second hall is of version 2, whatever it was.
    fn new(first: Measured, second: Measured) -> Halls {
        let second = second.in_version(&VERSION_2);
        let out = &mut [0; MOST_PROBLEM_BYTES];
        let lengths = merge(&first.problem, &second.problem, out, &mut [0; MOST_ACTIONS]);
        let (bytes, _) = lengths.expect("both are sound, and fit together");
        Halls {
            first,
            second,
            bytes,
        }
    }

    fn name(&self) -> String {
        let [first, second] = [&self.first, &self.second].map(|hall| &hall.name);
        if first == second {
            format!("{first}, twice")
        } else {
            format!("{first} and {second}")
        }
    }

    fn facts(&self) -> u8 {
        self.first.tree.facts + self.second.tree.facts
    }

    fn actions(&self) -> usize {
        self.first.tree.actions.len() + self.second.tree.actions.len()
    }
}

/// What is measured beside plain Rust.
fn pairs() -> Vec<Halls> {
    vec![
        Halls::new(store(3, 3), store(2, 2)),
        Halls::new(store(6, 4), store(6, 4)),
        Halls::new(bombs(30), bombs(30)),
        Halls::new(grid(8), grid(8)),
        full("\"all\"", Formula::all, MOST_PROBLEM_BYTES),
    ]
}

/// The bytes that both halls have together, row by row; the last have as many as a
/// problem can have.
const BYTES: [usize; 5] = [2_048, 4_096, 8_192, 16_384, MOST_PROBLEM_BYTES];

/// Halls that grow.
fn growing() -> Vec<Halls> {
    let any = |bytes| full("\"any\"", Formula::any, bytes);
    BYTES.into_iter().map(any).collect()
}

/// Two halls of this kind of formulas alone, which have so many bytes together.
fn full(kind: &str, group: fn(Vec<Formula>) -> Formula, bytes: usize) -> Halls {
    let full = Full {
        facts: 32,
        actions: bytes / 1024,
        members: 100,
        group,
    };
    let hall = || full.of_length(&format!("{kind} of {}", whole(bytes as u64 / 2)), bytes / 2);
    Halls::new(hall(), hall())
}

/// The times of the library and of plain Rust, which must agree.
fn measure(halls: &Halls) -> [f64; 2] {
    let out = RefCell::new([0; MOST_PROBLEM_BYTES]);
    let table = RefCell::new([0; MOST_ACTIONS]);
    let ours = |inputs: &[&[u8]]| {
        let (out, table) = (&mut *out.borrow_mut(), &mut *table.borrow_mut());
        raw::merge(inputs[0], inputs[1], out, table).word
    };
    let plain = |inputs: &[&[u8]]| {
        let (out, table) = (&mut *out.borrow_mut(), &mut *table.borrow_mut());
        merge(inputs[0], inputs[1], out, table)
    };
    let inputs: [&[u8]; 2] = [&halls.first.problem, &halls.second.problem];
    let [tag, bytes, actions, ..] = ours(&inputs);
    let lengths = Ok((bytes as usize, actions as usize));
    assert_eq!((tag, lengths), (1, plain(&inputs)), "{}", halls.name());

    let ours = |inputs: &[&[u8]]| {
        black_box(ours(inputs));
    };
    let plain = |inputs: &[&[u8]]| {
        let _ = black_box(plain(inputs));
    };
    times(&inputs, [&ours, &plain])
}

/// Halls with the times of the library and of plain Rust.
type Row<'a> = (&'a Halls, [Figure; 2]);

fn measured(halls: &[Halls]) -> Vec<Row<'_>> {
    halls.iter().zip(agreed(halls, measure)).collect()
}

pub fn section(_: &mut Judges) -> Part {
    let (pairs, growing) = (pairs(), growing());
    let (mut rows, growth) = (measured(&pairs), measured(&growing));
    rows.extend(growth.last());
    let beside_plain = beside_plain(&rows);
    let (about, table) = (about_growth(&growth), growth_table(&growth));
    Part {
        text: format!("{ABOUT}{beside_plain}{about}{table}{PLOT}"),
        plots: vec![plot(&growth)],
    }
}

fn beside_plain(rows: &[Row]) -> String {
    let mut ratios = Ratios::new("ours / plain");
    let mut table = Table::new(&[
        "halls",
        "facts",
        "actions",
        "bytes",
        "ours",
        "plain",
        "ours, MB/s",
        "plain, MB/s",
        ratios.name,
    ]);
    for (halls, [ours, plain]) in rows {
        table.row(&[
            halls.name(),
            halls.facts().to_string(),
            halls.actions().to_string(),
            whole(halls.bytes as u64),
            ours.show(nanoseconds),
            plain.show(nanoseconds),
            speed(halls.bytes, ours.least),
            speed(halls.bytes, plain.least),
            ratios.cell(&halls.name(), *ours, *plain),
        ]);
    }
    table.finish() + &ratios.summary()
}

const ABOUT: &str = "
## Merge, beside plain Rust

Nanoseconds of merging two halls, reading included: `larkhammock_merge` of the proved archive (ours), and one written by hand in Rust
(`rust/bench/src/plain/merge.rs`), which has the reading of all plain Rust here, refuses alike and gives the same bytes. The second hall is of
version 2. The bytes, and those a second, are of the problem that is written; about as many are read. In the last two rows every formula of both halls is a group of this one kind, and their problem is nearly the longest there is.
";

fn growth_table(rows: &[Row]) -> String {
    let mut table = Table::new(&["bytes", "ours", "plain", "ours, a byte", "plain, a byte"]);
    for (halls, [ours, plain]) in rows {
        let byte = |figure: &Figure| figure.each(halls.bytes as f64).show(of_a_byte);
        table.row(&[
            whole(halls.bytes as u64),
            ours.show(time),
            plain.show(time),
            byte(ours),
            byte(plain),
        ]);
    }
    table.finish()
}

/// Nanoseconds of a time in seconds that is short.
fn of_a_byte(seconds: f64) -> String {
    ratio(seconds * 1e9)
}

/// What a byte more costs between the shortest problem and the longest, and how many
/// times as much as its cheapest the dearest row's bytes cost.
fn about_growth(rows: &[Row]) -> String {
    let sizes: Vec<(f64, f64)> = rows
        .iter()
        .map(|(halls, [ours, _])| (halls.bytes as f64, ours.least))
        .collect();
    let ((few, before), (many, after)) = (sizes[0], sizes[sizes.len() - 1]);
    let bytes = sizes.iter().map(|(bytes, time)| time / bytes);
    let spread = bytes.clone().fold(0.0, f64::max) / bytes.fold(f64::MAX, f64::min);
    format!(
        "
With the bytes of the problem: halls as in the last row above, of more and more actions, and in the last two columns nanoseconds. Between {} and
{} bytes, a byte more costs {} ns a call of ours on the average, and in no row does a byte cost more than {} times as much as in another.
",
        whole(few as u64),
        whole(many as u64),
        of_a_byte((after - before) / (many - few)),
        ratio(spread)
    )
}

fn plot(rows: &[Row]) -> Plot {
    let series = |name: &str, which: usize| {
        let point = |(halls, figures): &Row| (halls.bytes as f64, figures[which].least);
        Series::line(name, rows.iter().map(point).collect())
    };
    Plot {
        name: "merging",
        title: String::from("Merging two halls, by the bytes of their problem"),
        x: Axis::doubling("bytes of the merged problem"),
        y: Axis::time("time of a call"),
        series: vec![series("ours (proved)", 0), series("plain Rust", 1)],
    }
}

const PLOT: &str = "![Time by the bytes of the merged problem](plots/merging.svg)
";
