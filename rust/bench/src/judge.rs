//! The judge beside the walk in plain Rust, a case at a time and on planes.

use crate::figure::Figure;
use crate::judges::Judges;
use crate::page::{nanoseconds, whole, Part, Table};
use crate::problems;
use crate::ratios::Ratios;

pub fn section(judges: &mut Judges) -> Part {
    let mut by_scalar = Ratios::new("ours / scalar");
    let mut by_planes = Ratios::new("ours / planes");
    let mut table = Table::new(&[
        "problem",
        "facts",
        "steps",
        "visits",
        "ours",
        "scalar",
        "planes",
        by_scalar.name,
        by_planes.name,
    ]);
    let problems = problems::all();
    for (measured, judged) in problems.iter().zip(judges.measure(&problems)) {
        let visit = |figure: Figure| figure.each(judged.visits as f64).show(nanoseconds);
        table.row(&[
            measured.name.clone(),
            measured.tree.facts.to_string(),
            measured.steps.len().to_string(),
            whole(judged.visits),
            visit(judged.ours),
            visit(judged.scalar),
            visit(judged.planes),
            by_scalar.cell(&measured.name, judged.ours, judged.scalar),
            by_planes.cell(&measured.name, judged.ours, judged.planes),
        ]);
    }
    Part::text(format!(
        "{ABOUT}{}{}{}",
        table.finish(),
        by_scalar.summary(),
        by_planes.summary()
    ))
}

const ABOUT: &str = "
## Judge, beside plain Rust

Nanoseconds a visit of whole calls, reading included: `larkhammock_judge` of the proved archive (ours), and two judges written by hand in
Rust (`rust/bench/src/plain`), which read and refuse alike, give the same answers, and have Rust's bounds checks. Scalar looks at one
case at a time, with a byte a fact; planes looks at 63 cases of the walk in one pass, with two words a fact and a bit a case. The first
ratio sets ours beside the walk as one would write it down first; the second sets it beside the same walk by blocks of 63 cases, as fast
as we can write that in Rust by hand. A ratio under 1 means that the proved code is the faster one.
";
