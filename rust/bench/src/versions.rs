//! The judge and the follower on problems of both versions.

use conformance::version::{Version, VERSION_1, VERSION_2};

use crate::figure::{agreed, Figure};
use crate::follow::{self, Passing};
use crate::judges::Judges;
use crate::page::{nanoseconds, ratio, whole, Part, Table};
use crate::problems::{bombs, grid, sorting, store, store_with_one_away, Measured};
use crate::ratios::Ratios;

/// What one operation takes on one problem.
struct Row {
    name: String,
    facts: u8,
    /// The visits of a walk, or the lines of a list.
    count: u64,
    ours: Figure,
    /// In plain Rust: by the case or the line, and 63 or 64 of them at a look.
    plain: [Figure; 2],
}

/// A row in version 1, where a problem can be of that, and in version 2.
type Both = (Option<Row>, Row);

/// Problems of up to 48 facts, which both versions have.
fn shared() -> Vec<Measured> {
    vec![sorting(12), grid(16), store(5, 4), bombs(46)]
}

/// Problems of more facts.
fn large() -> Vec<Measured> {
    vec![store_with_one_away(19, 2), bombs(62)]
}

/// What an operation takes, by whatever measures it, on all problems of a version.
fn both(measure: &mut dyn FnMut(Vec<Measured>) -> Vec<Row>) -> Vec<Both> {
    let of = |version: &Version| shared().iter().map(|m| m.in_version(version)).collect();
    let first = measure(of(&VERSION_1));
    let second = measure(of(&VERSION_2));
    let large = measure(large());
    let shared = first.into_iter().map(Some).zip(second);
    shared
        .chain(large.into_iter().map(|row| (None, row)))
        .collect()
}

fn judged(judges: &mut Judges, problems: Vec<Measured>) -> Vec<Row> {
    let judged = judges.measure(&problems);
    let row = |(measured, judged): (Measured, crate::judges::Judged)| Row {
        name: format!("judge, {}", measured.name),
        facts: measured.tree.facts,
        count: judged.visits,
        ours: judged.ours,
        plain: [judged.scalar, judged.planes],
    };
    problems.into_iter().zip(judged).map(row).collect()
}

fn followed(problems: Vec<Measured>) -> Vec<Row> {
    let lists: Vec<Passing> = problems.into_iter().map(follow::own).collect();
    let figures = agreed(&lists, follow::measure);
    let row = |(passing, [ours, by_line, by_64]): (&Passing, [Figure; 3])| Row {
        name: format!("follow, {}", passing.measured.name),
        facts: passing.measured.tree.facts,
        count: follow::lines(passing),
        ours,
        plain: [by_line, by_64],
    };
    lists.iter().zip(figures).map(row).collect()
}

/// The ratios of one version to plain Rust.
struct Beside {
    plain: [Ratios; 2],
}

impl Beside {
    fn new(names: [&'static str; 2]) -> Beside {
        Beside {
            plain: names.map(Ratios::new),
        }
    }

    fn cells(&mut self, row: &Row) -> [String; 2] {
        let [one, many] = &mut self.plain;
        [
            one.cell(&row.name, row.ours, row.plain[0]),
            many.cell(&row.name, row.ours, row.plain[1]),
        ]
    }
}

pub fn section(judges: &mut Judges) -> Part {
    let mut first = Beside::new(["version 1: ours / one", "version 1: ours / many"]);
    let mut second = Beside::new(["version 2: ours / one", "version 2: ours / many"]);
    let mut table = Table::new(&[
        "call",
        "facts",
        "visits or lines",
        "version 1",
        "version 2",
        "version 2 / 1",
        first.plain[0].name,
        first.plain[1].name,
        second.plain[0].name,
        second.plain[1].name,
    ]);
    let mut rows = both(&mut |problems| judged(judges, problems));
    rows.extend(both(&mut followed));
    for (of_first, of_second) in &rows {
        let each = |row: &Row| row.ours.each(row.count as f64).show(nanoseconds);
        let none = || String::from("-");
        let mut cells = vec![
            of_second.name.clone(),
            of_second.facts.to_string(),
            whole(of_second.count),
            of_first.as_ref().map_or_else(none, each),
            each(of_second),
            of_first
                .as_ref()
                .map_or_else(none, |row| of_second.ours.over(row.ours).show(ratio)),
        ];
        let in_first = of_first.as_ref().map(|row| first.cells(row));
        cells.extend(in_first.unwrap_or_else(|| [none(), none()]));
        cells.extend(second.cells(of_second));
        table.row(&cells);
    }
    let ratios = first.plain.iter().chain(&second.plain);
    let summaries: String = ratios.map(Ratios::summary).collect();
    Part::text(format!("{ABOUT}{}{summaries}", table.finish()))
}

const ABOUT: &str = "
## Both versions

Nanoseconds a visit of judging and a line of following, whole calls, reading included: problems of up to 48 facts as they are in version 1 and
in version 2, and two that need version 2, of 57 and of 63 facts. Visits and lines are the same in both versions. The lists are those that the library
writes. Beside them stand the judges and the followers by hand in plain Rust, which read both versions too: with one case or line at a look, and
with 63 cases or 64 lines.
";
