//! Plots, which gnuplot draws.

use std::fs;
use std::io::{self, Write};
use std::path::Path;
use std::process::{Command, Stdio};

pub struct Plot {
    /// That of its file, without the end.
    pub name: &'static str,
    pub title: String,
    pub x: Axis,
    pub y: Axis,
    pub series: Vec<Series>,
}

/// What an axis shows.
pub struct Axis {
    label: &'static str,
    scale: Scale,
}

enum Scale {
    /// From nought on, with a mark at the multiples of a number.
    Linear(u32),
    /// With a mark at the powers of two.
    Doubling,
    /// With a mark at the powers of ten.
    Log,
    /// The same of seconds, with their unit.
    Time,
}

impl Axis {
    pub fn linear(label: &'static str, marks: u32) -> Axis {
        let scale = Scale::Linear(marks);
        Axis { label, scale }
    }

    pub fn doubling(label: &'static str) -> Axis {
        let scale = Scale::Doubling;
        Axis { label, scale }
    }

    pub fn log(label: &'static str) -> Axis {
        let scale = Scale::Log;
        Axis { label, scale }
    }

    pub fn time(label: &'static str) -> Axis {
        let scale = Scale::Time;
        Axis { label, scale }
    }

    fn script(&self, axis: char) -> String {
        let label = format!("set {axis}label '{}' noenhanced\n", quoted(self.label));
        let scale = match self.scale {
            Scale::Linear(marks) => format!("set {axis}range [0:*]\nset {axis}tics {marks}\n"),
            Scale::Doubling => format!("set logscale {axis} 2\n"),
            Scale::Log => format!("set logscale {axis}\nset format {axis} '10^{{%L}}'\n"),
            Scale::Time => format!("set logscale {axis}\nset format {axis} '%.0s %cs'\n"),
        };
        label + &scale
    }
}

/// Points of one kind, with a line through them or without.
pub struct Series {
    name: String,
    points: Vec<(f64, f64)>,
    joined: bool,
}

impl Series {
    pub fn line(name: &str, points: Vec<(f64, f64)>) -> Series {
        let name = name.to_string();
        Series {
            name,
            points,
            joined: true,
        }
    }

    pub fn points(name: &str, points: Vec<(f64, f64)>) -> Series {
        Series {
            joined: false,
            ..Series::line(name, points)
        }
    }
}

/// Marks, dashes and colours in the order of the series: each tells them apart alone.
const STYLES: [(u8, u8, &str); 5] = [
    (7, 1, "#000000"),
    (4, 2, "#0072b2"),
    (8, 4, "#d55e00"),
    (1, 3, "#008060"),
    (2, 5, "#904070"),
];

impl Plot {
    /// Writes the plot into the folder.
    pub fn draw(&self, folder: &Path) -> io::Result<()> {
        fs::create_dir_all(folder)?;
        let file = folder.join(self.name).with_extension("svg");
        let mut gnuplot = Command::new("gnuplot").stdin(Stdio::piped()).spawn()?;
        let mut script = gnuplot.stdin.take().expect("it is piped");
        script.write_all(self.script(&file).as_bytes())?;
        drop(script);
        if gnuplot.wait()?.success() {
            Ok(())
        } else {
            Err(io::Error::other(format!("gnuplot fails on {}", self.name)))
        }
    }

    fn script(&self, file: &Path) -> String {
        let mut script = format!(
            "set encoding utf8\n\
             set micro\n\
             set terminal svg size 900,520 background 'white' font 'sans-serif,14'\n\
             set output '{}'\n\
             set title '{}' font ',16' noenhanced\n\
             set key outside right top Left reverse spacing 1.4\n\
             set grid lc rgb '#c8c8c8' dt 1 lw 0.5\n\
             set offsets graph 0.03, graph 0.03, 0, 0\n\
             set pointsize 0.8\n",
            file.display(),
            quoted(&self.title)
        );
        script += &self.x.script('x');
        script += &self.y.script('y');
        for (i, series) in self.series.iter().enumerate() {
            script += &series.data(i);
        }
        let series = self.series.iter().zip(STYLES).enumerate();
        let drawn: Vec<String> = series.map(|(i, (s, style))| s.drawn(i, style)).collect();
        script + "plot " + &drawn.join(", ") + "\n"
    }
}

impl Series {
    /// The points as a named block of gnuplot's.
    fn data(&self, number: usize) -> String {
        let mut data = format!("$series{number} << END\n");
        for (x, y) in &self.points {
            data += &format!("{x} {y}\n");
        }
        data + "END\n"
    }

    fn drawn(&self, number: usize, (mark, dash, colour): (u8, u8, &str)) -> String {
        let title = quoted(&self.name);
        let style = if self.joined {
            format!("linespoints dt {dash}")
        } else {
            String::from("points")
        };
        format!("$series{number} with {style} pt {mark} lw 1.5 lc rgb '{colour}' title '{title}' noenhanced")
    }
}

/// A text between gnuplot's single quotes.
fn quoted(text: &str) -> String {
    text.replace('\'', "''")
}

#[cfg(test)]
mod tests {
    use super::*;

    #[test]
    fn a_script_has_labels_and_points() {
        let plot = Plot {
            name: "x",
            title: String::from("a plan's time"),
            x: Axis::doubling("steps"),
            y: Axis::linear("lines", 10),
            series: vec![Series::points("ours", vec![(1.0, 0.5), (2.0, 1.0)])],
        };
        let script = plot.script(Path::new("x.svg"));
        for part in [
            "set title 'a plan''s time'",
            "set xlabel 'steps'",
            "set logscale x 2",
            "set yrange [0:*]",
            "$series0 << END\n1 0.5\n2 1\nEND\n",
            "plot $series0 with points",
            "title 'ours'",
        ] {
            assert!(script.contains(part), "{part} in {script}");
        }
        assert!(!script.contains("set logscale y"));
    }
}
