//! Measures everything, prints the page, and writes it to `docs/BENCHMARKS.md` and its
//! plots beside it. Sections that are named are measured and printed, and nothing is
//! written.

use std::env;
use std::fs;
use std::io;
use std::path::Path;

use bench::judges::Judges;
use bench::page::Part;
use bench::{follow, growth, judge, machine, merging, relevance, search, solvers, stack, versions};

type Section = (&'static str, fn(&mut Judges) -> Part);

const SECTIONS: [Section; 9] = [
    ("judge", judge::section),
    ("follow", follow::section),
    ("versions", versions::section),
    ("relevance", relevance::section),
    ("search", search::section),
    ("merging", merging::section),
    ("growth", growth::section),
    ("stack", stack::section),
    ("solvers", solvers::section),
];

fn main() -> io::Result<()> {
    let names: Vec<String> = env::args().skip(1).collect();
    if names.is_empty() {
        return write_page();
    }
    let mut judges = Judges::default();
    for name in names {
        let section = SECTIONS.iter().find(|(known, _)| *known == name);
        let Some((_, section)) = section else {
            let known = SECTIONS.map(|(known, _)| known).join(", ");
            return Err(io::Error::other(format!("no section {name} in: {known}")));
        };
        print!("{}", section(&mut judges).text);
    }
    Ok(())
}

fn write_page() -> io::Result<()> {
    let root = Path::new(env!("CARGO_MANIFEST_DIR")).join("../..");
    let docs = root.join("docs");
    let mut page = machine::head(&root)?;
    print!("{page}");
    let mut judges = Judges::default();
    for (_, section) in SECTIONS {
        let part = section(&mut judges);
        print!("{}", part.text);
        page += &part.text;
        for plot in part.plots {
            plot.draw(&docs.join("plots"))?;
        }
    }
    let doubtful = doubtful(&page);
    if doubtful > 0 {
        eprintln!(
            "{doubtful} figures do not agree with themselves: measure again on an idle machine"
        );
    }
    fs::write(docs.join("BENCHMARKS.md"), page)
}

/// The cells of tables that have two times.
fn doubtful(page: &str) -> usize {
    let rows = page.lines().filter(|line| line.starts_with('|'));
    let cells = rows.flat_map(|row| row.split('|'));
    cells.filter(|cell| cell.contains(" to ")).count()
}
