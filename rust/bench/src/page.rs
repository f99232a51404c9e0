//! A part of the page: tables and figures as text, and plots.

use crate::plots::Plot;

/// What a section has for the page.
pub struct Part {
    pub text: String,
    pub plots: Vec<Plot>,
}

impl Part {
    /// A part without plots.
    pub fn text(text: String) -> Part {
        let plots = Vec::new();
        Part { text, plots }
    }
}

/// A table in Markdown; the first column is text, the others are figures.
pub struct Table {
    columns: usize,
    text: String,
}

impl Table {
    pub fn new(columns: &[&str]) -> Table {
        let mut table = Table {
            columns: columns.len(),
            text: String::from("\n"),
        };
        table.row(columns);
        table.text += &format!("|---{}|\n", "|--:".repeat(columns.len() - 1));
        table
    }

    pub fn row(&mut self, cells: &[impl AsRef<str>]) {
        assert_eq!(cells.len(), self.columns);
        for cell in cells {
            self.text += &format!("| {} ", cell.as_ref());
        }
        self.text += "|\n";
    }

    pub fn finish(self) -> String {
        self.text + "\n"
    }
}

/// A whole number with its thousands apart.
pub fn whole(number: u64) -> String {
    let digits = number.to_string();
    let mut text = String::new();
    for (i, digit) in digits.chars().enumerate() {
        if i > 0 && (digits.len() - i).is_multiple_of(3) {
            text.push(',');
        }
        text.push(digit);
    }
    text
}

/// A ratio, with three digits where the first decimal is nought.
pub fn ratio(ratio: f64) -> String {
    if ratio < 0.1 {
        format!("{ratio:.3}")
    } else {
        format!("{ratio:.2}")
    }
}

/// Nanoseconds of a time in seconds.
pub fn nanoseconds(seconds: f64) -> String {
    let ns = seconds * 1e9;
    if ns < 100.0 {
        format!("{ns:.1}")
    } else {
        whole(ns.round() as u64)
    }
}

/// Megabytes a second of this many bytes in one time.
pub fn speed(bytes: usize, seconds: f64) -> String {
    whole((bytes as f64 / seconds / 1e6).round() as u64)
}

/// A time in seconds, in the unit that leaves two or three digits before the
/// point.
pub fn time(seconds: f64) -> String {
    match seconds {
        s if s < 1e-3 => format!("{:.1} µs", s * 1e6),
        s if s < 1.0 => format!("{:.1} ms", s * 1e3),
        s => format!("{s:.1} s"),
    }
}
