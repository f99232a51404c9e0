//! What following a line costs by the length of its list.

use std::array;

use conformance::version::VERSION_1;
use larkhammock::Refusal;

use crate::figure::{agreed, Figure};
use crate::follow::{empty_plan, first, ours, plain};
use crate::page::{nanoseconds, ratio, whole, Part, Table};
use crate::plain;
use crate::plain::follow::follow_list;
use crate::plots::{Axis, Plot, Series};
use crate::problems::{bombs, Measured};
use crate::timing::times;

/// Of these many lines a row has the time of one.
const LINES: [usize; 6] = [1_000, 2_000, 3_000, 4_000, 6_000, 8_000];

/// The last column has how many times as long as one of them another takes.
const LONG: usize = 4;
const SHORT: usize = 2;

/// Follows the first so many lines, which are sound and end short.
fn ends_short(measured: &Measured, list: &[u8], lines: usize) {
    let Measured { problem, plan, .. } = measured;
    let (number, place) = (70, lines as u64);
    let ours = larkhammock::follow_list(problem, plan, list);
    assert_eq!(ours, Err(Refusal { number, place }));
    let (number, place) = (70, lines);
    let plain = follow_list(problem, plan, list);
    assert_eq!(plain, Err(plain::Refusal { number, place }));
}

/// What following takes for each number of lines.
struct Row {
    name: String,
    steps: usize,
    figures: [Figure; LINES.len()],
}

/// The rows of ours and of plain Rust.
fn measure(measured: &Measured) -> [Row; 2] {
    let Measured { problem, plan, .. } = measured;
    let figures = agreed(&LINES, |count| {
        let list = first(&VERSION_1, *count);
        ends_short(measured, &list, *count);
        times(&[problem, plan, &list], [&ours, &plain])
    });
    let row = |which: usize, who: &str| Row {
        name: format!("{}, {who}", measured.name),
        steps: measured.steps.len(),
        figures: array::from_fn(|i| figures[i][which]),
    };
    [row(0, "ours"), row(1, "plain Rust")]
}

impl Row {
    fn lines(&self) -> [Figure; LINES.len()] {
        array::from_fn(|i| self.figures[i].each(LINES[i] as f64))
    }

    fn cells(&self) -> Vec<String> {
        let mut cells = vec![self.name.clone(), self.steps.to_string()];
        cells.extend(self.lines().map(|line| line.show(nanoseconds)));
        cells.push(self.figures[LONG].over(self.figures[SHORT]).show(ratio));
        cells
    }

    /// How many times as much as its cheapest line the dearest of a row costs.
    fn spread(&self) -> f64 {
        let lines = self.lines().map(|line| line.least);
        lines.iter().copied().fold(0.0, f64::max) / lines.iter().copied().fold(f64::MAX, f64::min)
    }

    fn series(&self) -> Series {
        let points = LINES.iter().zip(self.lines());
        let points = points.map(|(lines, line)| (*lines as f64, line.least));
        Series::line(&self.name, points.collect())
    }
}

fn table(rows: &[Row]) -> String {
    let columns = LINES.map(|lines| whole(lines as u64));
    let last = format!("{} / {}", columns[LONG], columns[SHORT]);
    let mut head = vec!["list", "steps"];
    head.extend(columns.iter().map(String::as_str));
    head.push(&last);
    let mut table = Table::new(&head);
    for row in rows {
        table.row(&row.cells());
    }
    table.finish()
}

pub fn part() -> Part {
    let rows = [empty_plan(), bombs(46)].map(|measured| measure(&measured));
    let rows = rows.as_flattened();
    let spread = rows.iter().map(Row::spread).fold(0.0, f64::max);
    let plot = Plot {
        name: "lines",
        title: String::from("Following a list, by its length"),
        x: Axis::linear("lines of the list", 1_000),
        y: Axis::time("time of a line"),
        series: rows.iter().map(Row::series).collect(),
    };
    Part {
        text: format!("{}{}{PLOT}", about(spread), table(rows)),
        plots: vec![plot],
    }
}

fn about(spread: f64) -> String {
    format!(
        "
Nanoseconds a line of the first so many lines of those longest lists; plain Rust goes by line. (The lists are sound, and end short: 70.) A
line costs one look at its case, whatever came before it, since where the cover ends is a running value: in no row does the dearest line cost
more than {} times as much as the cheapest. The last column sets whole lists beside each other; a test asks for at most 3 there.
",
        ratio(spread)
    )
}

const PLOT: &str = "![Time of a line by the list's length](plots/lines.svg)
";
