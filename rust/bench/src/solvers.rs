//! Beside what one would take otherwise: a SAT solver on the counterexample
//! encoding.

use std::collections::BTreeSet;
use std::env;
use std::fs;
use std::path::Path;
use std::process::{self, Command};
use std::time::{Duration, Instant};

use larkhammock::{Outcome, State, Verdict, Version};

use crate::figure::{agreed, Figure};
use crate::judges::{Judged, Judges};
use crate::page::{time, whole, Part, Table};
use crate::plots::{Axis, Plot, Series};
use crate::problems::{self, Measured};
use crate::sat::{self, Lit};

/// A solver that takes longer is stopped.
const PATIENCE: Duration = Duration::from_secs(60);

/// Runs of a solver of which the least time counts.
const RUNS: usize = 10;

/// How a solver is called on a file, and where it says its assignment.
struct Solver {
    name: &'static str,
    words: fn(cnf: &Path, answer: &Path) -> Vec<String>,
}

fn words(parts: &[&str], paths: &[&Path]) -> Vec<String> {
    let paths = paths.iter().map(|path| path.display().to_string());
    parts.iter().map(|p| p.to_string()).chain(paths).collect()
}

const SOLVERS: [Solver; 2] = [
    Solver {
        name: "cadical",
        words: |cnf, answer| words(&["-q", "-w"], &[answer, cnf]),
    },
    Solver {
        name: "minisat",
        words: |cnf, answer| words(&["-verb=0"], &[cnf, answer]),
    },
];

/// Encodes, writes the file, runs the solver and reads its answer: the time of
/// it all, and the failing start state if there is one.
fn solve(solver: &Solver, measured: &Measured) -> (f64, Option<State>) {
    let folder = env::temp_dir();
    let file = |end: &str| folder.join(format!("larkhammock-bench-{}.{end}", process::id()));
    let (cnf, answer) = (file("cnf"), file("answer"));
    let begin = Instant::now();
    let encoded = sat::encode(&measured.tree, &measured.steps);
    fs::write(&cnf, encoded.cnf.dimacs()).expect("the temporary folder can be written");
    let output = Command::new("timeout")
        .arg(PATIENCE.as_secs().to_string())
        .arg(solver.name)
        .args((solver.words)(&cnf, &answer))
        .output()
        .expect("`timeout` is there");
    let state = match output.status.code() {
        Some(20) => None,
        Some(10) => {
            let text = fs::read_to_string(&answer).expect("the solver wrote its assignment");
            Some(state(&encoded.start, &text))
        }
        Some(124) => panic!("{} takes too long on {}", solver.name, measured.name),
        other => panic!(
            "{} on {}: {other:?}: install it with `rust/bench/run`",
            solver.name, measured.name
        ),
    };
    let seconds = begin.elapsed().as_secs_f64();
    let _ = (fs::remove_file(&cnf), fs::remove_file(&answer));
    (seconds, state)
}

/// The start state of an assignment.
fn state(start: &[Lit], assignment: &str) -> State {
    let literals: BTreeSet<Lit> = assignment.split_whitespace().flat_map(str::parse).collect();
    let values: Vec<bool> = start.iter().map(|v| literals.contains(v)).collect();
    State::of_values(Version::V1, &values)
}

/// The least time of a solver, which must agree with the judge.
fn solver_time(solver: &Solver, measured: &Measured) -> f64 {
    let verdict = verdict(measured);
    let times = (0..RUNS).map(|_| {
        let (seconds, state) = solve(solver, measured);
        agree(measured, &verdict, state);
        seconds
    });
    times.fold(f64::INFINITY, f64::min)
}

fn verdict(measured: &Measured) -> Verdict {
    let Measured { problem, plan, .. } = measured;
    larkhammock::judge(problem, plan, u64::MAX).expect("the problems are sound")
}

/// A plan is right where there is no counterexample, and what the solver names
/// as one is a start state, not below the judge's, whose run is not reached.
fn agree(measured: &Measured, verdict: &Verdict, found: Option<State>) {
    match (verdict, found) {
        (Verdict::Right { .. }, None) => {}
        (Verdict::Wrong { state, .. }, Some(found)) => {
            assert!(state.number() <= found.number());
            let outcome = larkhammock::run(&measured.problem, &measured.plan, found);
            assert_ne!(outcome, Ok(Outcome::Reached));
        }
        disagreement => panic!("{}: {disagreement:?}", measured.name),
    }
}

/// What the judges and the solvers take on a problem.
struct Row {
    measured: Measured,
    judged: Judged,
    solvers: [Figure; SOLVERS.len()],
}

impl Row {
    fn is_wrong(&self) -> bool {
        matches!(verdict(&self.measured), Verdict::Wrong { .. })
    }

    fn cells(&self) -> Vec<String> {
        let verdict = if self.is_wrong() { "wrong" } else { "right" };
        let mut cells = vec![
            self.measured.name.clone(),
            verdict.to_string(),
            whole(self.judged.visits),
            self.judged.ours.show(time),
        ];
        cells.extend(self.solvers.map(|solver| solver.show(time)));
        cells
    }

    /// How many times as long as the judge the faster solver takes.
    fn ahead(&self) -> f64 {
        let solvers = self.solvers.map(|solver| solver.least);
        solvers.iter().copied().fold(f64::INFINITY, f64::min) / self.judged.ours.least
    }
}

fn rows(judges: &mut Judges) -> Vec<Row> {
    let problems = problems::for_solvers();
    let judged = judges.measure(&problems);
    let solvers = agreed(&problems, |measured| {
        SOLVERS
            .each_ref()
            .map(|solver| solver_time(solver, measured))
    });
    let rows = problems.into_iter().zip(judged).zip(solvers);
    rows.map(|((measured, judged), solvers)| Row {
        measured,
        judged,
        solvers,
    })
    .collect()
}

pub fn section(judges: &mut Judges) -> Part {
    let mut table = Table::new(&[
        "problem", "verdict", "visits", "judge", "cadical", "minisat",
    ]);
    let rows = rows(judges);
    for row in &rows {
        table.row(&row.cells());
    }
    let text = format!(
        "{ABOUT}{}{PLOT}{}{}{WHY}",
        table.finish(),
        where_a_solver_wins(&rows),
        where_the_walk_wins(&rows)
    );
    Part {
        text,
        plots: vec![plot(&rows)],
    }
}

/// The times of all by the visits of the walk.
fn plot(rows: &[Row]) -> Plot {
    let series = |name: &str, of: &dyn Fn(&Row) -> Figure| {
        let points = rows
            .iter()
            .map(|row| (row.judged.visits as f64, of(row).least));
        Series::points(name, points.collect())
    };
    Plot {
        name: "visits",
        title: String::from("Judging a plan, by the visits of the walk"),
        x: Axis::log("visits of the walk"),
        y: Axis::time("time of a call, or of a solver"),
        series: vec![
            series("ours (proved)", &|row| row.judged.ours),
            series("plain Rust, planes", &|row| row.judged.planes),
            series("plain Rust, scalar", &|row| row.judged.scalar),
            series(SOLVERS[0].name, &|row| row.solvers[0]),
            series(SOLVERS[1].name, &|row| row.solvers[1]),
        ],
    }
}

/// The least time of a solver, its most, and that of its start.
fn span(rows: &[Row], solver: usize) -> String {
    let times = rows.iter().map(|row| row.solvers[solver].least);
    let (least, most) = times.fold((f64::INFINITY, 0.0), |(least, most): (f64, f64), time| {
        (least.min(time), most.max(time))
    });
    let start = rows.last().expect("the start is measured").solvers[solver];
    format!(
        "{} takes {} to {}, and its start alone {}",
        SOLVERS[solver].name,
        time(least),
        time(most),
        start.show(time)
    )
}

fn where_a_solver_wins(rows: &[Row]) -> String {
    let slower = rows.iter().filter(|row| row.ahead() <= 1.0);
    let names: Vec<&str> = slower.map(|row| row.measured.name.as_str()).collect();
    format!(
        "
**Where a SAT solver wins.** Here with: {}. That is so wherever the walk takes longer than a solver's start. The walk fixes facts in
their order, so each fact that decides nothing doubles its work where it comes before those that decide, as where the loads come first.
A solver finds its own order: {};
{}.
",
        names.join("; "),
        span(rows, 0),
        span(rows, 1)
    )
}

fn where_the_walk_wins(rows: &[Row]) -> String {
    let (_, rows) = rows.split_last().expect("the start is measured");
    let furthest = rows.iter().max_by(|a, b| a.ahead().total_cmp(&b.ahead()));
    let furthest = furthest.expect("something was measured");
    let wrong = rows.iter().filter(|row| row.is_wrong());
    let latest = wrong.map(|row| row.judged.visits).max().unwrap_or(0);
    format!(
        "
**Where the walk wins.** With all others, by up to {} times ({}): it starts at once, and of a wrong plan the lowest failing state may come
early, here after {} visits at most.
",
        whole(furthest.ahead() as u64),
        furthest.measured.name,
        whole(latest)
    )
}

const ABOUT: &str = "
## Beside SAT solvers

What one would take otherwise: an encoding whose satisfying assignments are the start states from which the plan fails, also where a fact
has both conditions true at a step, written as DIMACS by `rust/bench/src/sat.rs` and handed to `cadical` and to `minisat` as Debian has them. Times
are of the whole way: encoding, writing the file, starting the solver, reading its answer. The last row is the start alone: a problem of
one fact that is its own goal. Each solver's verdict was held to the judge's, and each counterexample was run.
";

const PLOT: &str = "![Time by the visits of the walk](plots/visits.svg)
";

const WHY: &str = "
**Why the walk is what the certificate needs.** A solver's \"unsatisfiable\" is the word of a large program that nobody proved, about
an encoding that nobody proved. A proof in its terms (DRAT) speaks of clauses and auxiliary variables, is checked by another large
program, and nobody at a shelf can follow it. The walk visits just the cases that a list needs, twice the lines less one: each line is
fact values and one run of the plan, anyone can follow it, no passing list is shorter, and the program that follows it is proved. And
the walk's counterexample is the lowest one, the same on every machine.
";
