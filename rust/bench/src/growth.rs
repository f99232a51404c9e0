//! What time grows with, and what not.

use conformance::model::{Action, Effect, Formula, Problem};
use conformance::version::VERSION_1;

use crate::figure::Figure;
use crate::judges::{Judged, Judges};
use crate::page::{nanoseconds, time, whole, Part, Table};
use crate::plots::{Axis, Plot, Series};
use crate::problems::{sorting, Measured};

const CHANNELS: [u16; 7] = [4, 6, 8, 10, 12, 14, 16];
const STEPS: [u16; 9] = [1, 2, 4, 8, 16, 32, 64, 128, 256];
const FACTS: [u16; 6] = [8, 16, 24, 32, 40, 48];

/// The facts on which the goal of [`deciding`] hangs.
const DECIDING: u8 = 8;

/// A problem whose walk splits on the first eight facts and on no more: the goal
/// is unknown as long as one of them is. Its one action sets a fact that is true.
fn deciding(facts: u8, steps: usize) -> Measured {
    let problem = Problem {
        version: VERSION_1,
        facts,
        initial: Formula::always(),
        goal: Formula::all((0..DECIDING).map(Formula::either)),
        actions: vec![Action {
            precondition: Formula::always(),
            effects: vec![Effect::sets(0, Formula::fact(0))],
        }],
    };
    let name = format!("{facts} facts and {steps} steps");
    Measured::new(name, problem, vec![0; steps])
}

/// What was judged, by its size.
type Sized = (f64, Judged);

fn measure(judges: &mut Judges, sizes: &[u16], make: fn(u16) -> Measured) -> Vec<Sized> {
    let problems: Vec<Measured> = sizes.iter().map(|size| make(*size)).collect();
    let sizes = sizes.iter().map(|size| f64::from(*size));
    sizes.zip(judges.measure(&problems)).collect()
}

fn table(size: &str, rows: &[Sized]) -> String {
    let mut table = Table::new(&[size, "visits", "ours", "ours, a visit", "planes, a visit"]);
    for (size, judged) in rows {
        let visit = |figure: Figure| figure.each(judged.visits as f64).show(nanoseconds);
        table.row(&[
            size.to_string(),
            whole(judged.visits),
            judged.ours.show(time),
            visit(judged.ours),
            visit(judged.planes),
        ]);
    }
    table.finish()
}

/// From which size on a visit of ours costs more with each row.
fn rising_from(rows: &[Sized]) -> f64 {
    let visit = |(_, judged): &Sized| judged.ours.each(judged.visits as f64).least;
    let falls = |pair: &[Sized]| visit(&pair[1]) <= visit(&pair[0]);
    let last_fall = rows.windows(2).rposition(falls);
    rows[last_fall.map_or(0, |i| i + 1)].0
}

/// The times of all three judges by size.
fn plot(name: &'static str, title: &str, x: Axis, rows: &[Sized]) -> Plot {
    let series = |name: &str, of: fn(&Judged) -> Figure| {
        let points = rows.iter().map(|(size, judged)| (*size, of(judged).least));
        Series::line(name, points.collect())
    };
    Plot {
        name,
        title: title.to_string(),
        x,
        y: Axis::time("time of a call"),
        series: vec![
            series("ours (proved)", |judged| judged.ours),
            series("plain Rust, planes", |judged| judged.planes),
            series("plain Rust, scalar", |judged| judged.scalar),
        ],
    }
}

pub fn section(judges: &mut Judges) -> Part {
    let visits = measure(judges, &CHANNELS, |channels| sorting(channels as u8));
    let steps = measure(judges, &STEPS, |steps| deciding(DECIDING, steps.into()));
    let facts = measure(judges, &FACTS, |facts| deciding(facts as u8, 16));
    let text = [
        about_visits(rising_from(&visits)),
        table("channels", &visits),
        about_steps(&steps),
        table("steps", &steps),
        FACTS_MOVE.to_string(),
        table("facts", &facts),
        PLOTS.to_string(),
    ];
    let plots = vec![
        plot(
            "steps",
            "Judging 511 cases, by the plan's length",
            Axis::doubling("steps of the plan"),
            &steps,
        ),
        plot(
            "facts",
            "Judging 511 cases with 16 steps, by the facts",
            Axis::linear("facts of the problem, of which eight matter", 8),
            &facts,
        ),
    ];
    Part {
        text: text.concat(),
        plots,
    }
}

fn about_visits(channels: f64) -> String {
    format!(
        "
## Growth

With visits: sorting networks. A few visits bear the reading of the problem; from {channels} channels on a visit of ours costs more with each row, as
the network has more comparators.
"
    )
}

/// What a step more costs between the shortest plan and the longest.
fn about_steps(rows: &[Sized]) -> String {
    let ((few, before), (many, after)) = (rows[0], rows[rows.len() - 1]);
    let step = (after.ours.least - before.ours.least) / (many - few);
    format!(
        "With steps: eight facts that all must be fixed, and a plan of one action over and over. One run of the plan serves up to 63 visits.
Between {few} and {many} steps, a step more costs {} ns a call of ours on the average.
",
        nanoseconds(step)
    )
}

const FACTS_MOVE: &str = "With facts: the same with 16 steps, and facts after the first eight that nothing names. They cost no visit; but the walk is looked at by blocks
of five facts, the first one of what is left over, so that the fact count moves the blocks' edges, and with them how many of the 511 visits
a look serves.
";

const PLOTS: &str = "![Time by the plan's length](plots/steps.svg)

![Time by the facts](plots/facts.svg)
";
