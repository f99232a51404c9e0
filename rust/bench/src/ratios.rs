//! The ratios of one column of a table.

use crate::figure::Figure;
use crate::page::ratio;

/// Each ratio with its problem, both as the figures have it and of their lesser times
/// alone.
pub struct Ratios {
    pub name: &'static str,
    rows: Vec<Row>,
}

struct Row {
    problem: String,
    shown: Figure,
    lesser: f64,
}

impl Ratios {
    pub fn new(name: &'static str) -> Ratios {
        Ratios {
            name,
            rows: Vec::new(),
        }
    }

    /// Keeps how many times as long as the other one takes, and is its cell.
    pub fn cell(&mut self, problem: &str, one: Figure, other: Figure) -> String {
        let shown = one.over(other);
        self.rows.push(Row {
            problem: problem.to_string(),
            shown,
            lesser: one.least / other.least,
        });
        shown.show(ratio)
    }

    fn mean(&self) -> f64 {
        let logs: f64 = self.rows.iter().map(|row| row.lesser.ln()).sum();
        (logs / self.rows.len() as f64).exp()
    }

    pub fn summary(&self) -> String {
        let worst = self
            .rows
            .iter()
            .max_by(|a, b| a.lesser.total_cmp(&b.lesser));
        let worst = worst.expect("something was measured");
        let doubtful = self.rows.iter().any(|row| !row.shown.is_sure());
        let of_lesser = if doubtful {
            ", of the lesser times where there are two"
        } else {
            ""
        };
        format!(
            "- **{}: {} in the geometric mean**{of_lesser}; {} at worst, with {}\n",
            self.name,
            ratio(self.mean()),
            worst.shown.show(ratio),
            worst.problem
        )
    }
}
