//! Problems with plans that can be tried at the desk, and the files they fill.

mod grid;
mod large_store;
mod merging;
mod names;
mod small_store;
mod sorting;
mod store;
mod trial;
mod two_halls;

use std::collections::BTreeMap;

use crate::desk;
use crate::encode;
use crate::oracle::{self, Facts, Search, Task};
use crate::shell::{Manner, Names};

pub use merging::Merging;

/// One problem or a few, with what they are about.
pub struct Example {
    pub folder: &'static str,
    /// The title and all that comes before the trials.
    about: String,
    pub trials: Vec<Trial>,
    /// The names in each list of names, and its file.
    pub names: Vec<(&'static str, Names)>,
    pub search: Option<Searching>,
    pub merging: Option<Merging>,
}

impl Example {
    /// The names of a trial's problem, and their file: there are as many as it has facts and
    /// actions.
    fn names_for(&self, trial: &Trial) -> (&str, &Names) {
        let problem = oracle::read_problem(&trial.problem.1).expect("the problem is sound");
        let fits = |names: &Names| {
            names.facts.len() == usize::from(problem.facts)
                && names.actions.len() == problem.actions.len()
        };
        let found = self.names.iter().find(|(_, names)| fits(names));
        let (file, names) = found.expect("each problem has names");
        (file, names)
    }
}

/// Searches among the short plans of the file `problem`, up to each of these
/// lengths, and a story of them. The last finds a plan.
pub struct Searching {
    pub problem: Vec<u8>,
    pub lengths: &'static [u64],
    pub grant: u64,
    story: &'static str,
}

impl Searching {
    fn new(problem: &[u8], lengths: &'static [u64], story: &'static str) -> Searching {
        Searching {
            problem: problem.to_vec(),
            lengths,
            grant: desk::GRANT,
            story,
        }
    }

    fn search(&self, longest: u64) -> Search {
        let search = oracle::search_plans(&self.problem, longest, self.grant);
        search.expect("the problem is sound and small")
    }

    /// The steps of the plan that is found.
    fn plan(&self) -> Vec<u8> {
        let mut searches = self.lengths.iter().map(|longest| self.search(*longest));
        match searches.next_back() {
            Some(Search::Found { plan, .. }) => plan,
            other => panic!("{other:?}"),
        }
    }

    /// What the program `search` of the crate `larkhammock` prints, without the
    /// end of its line.
    pub fn printed(&self, longest: u64) -> String {
        let steps = |plan: &[u8]| -> String { plan.iter().map(|s| format!(" {s}")).collect() };
        match self.search(longest) {
            Search::Found { plan, visits } => format!("found{} visited {visits}", steps(&plan)),
            Search::NoneRight { visits } => format!("none visited {visits}"),
            Search::Undecided { plan, visits } => {
                format!("undecided{} visited {visits}", steps(&plan))
            }
        }
    }
}

/// A problem and a plan, and the names of their files and of the print.
pub struct Trial {
    pub problem: (&'static str, Vec<u8>),
    pub plan: (&'static str, Vec<u8>),
    pub output: &'static str,
    story: &'static str,
    pub start: Option<Start>,
}

/// A state from which the plan reaches the goal, and a story of the facts that
/// this run rests on: they go in for its `FACTS`.
pub struct Start {
    pub state: u64,
    story: &'static str,
}

impl Trial {
    fn right(problem: &[u8], steps: &[u8], story: &'static str) -> Trial {
        Trial {
            problem: ("problem", problem.to_vec()),
            plan: ("plan", encode::plan(steps)),
            output: "output",
            story,
            start: None,
        }
    }

    fn wrong(problem: &[u8], steps: &[u8], story: &'static str) -> Trial {
        Trial {
            plan: ("wrong-plan", encode::plan(steps)),
            output: "wrong-output",
            ..Trial::right(problem, steps, story)
        }
    }

    pub fn printed(&self) -> Vec<u8> {
        desk::printed(&self.problem.1, &self.plan.1)
    }

    /// The facts that the run from a state rests on.
    pub fn relevant_facts(&self, state: u64) -> Facts {
        let (problem, plan) = (&self.problem.1, &self.plan.1);
        let task = Task::parse(problem, plan).expect("both are sound");
        let run = oracle::relevant_facts(problem, plan, state, task.work_bytes());
        run.expect("the run reaches the goal").facts
    }
}

pub fn all() -> Vec<Example> {
    vec![
        trial::example(),
        store::example(),
        small_store::example(),
        large_store::example(),
        sorting::example(),
        grid::example(),
        two_halls::example(),
    ]
}

/// Every file of the folder, by its name from there.
pub fn files() -> BTreeMap<String, Vec<u8>> {
    let mut files = BTreeMap::new();
    files.insert("README.md".into(), INDEX.into());
    for example in all() {
        let mut put = |name: &str, bytes: Vec<u8>| {
            files.insert(format!("{}/{name}", example.folder), bytes);
        };
        put("README.md", readme(&example).into_bytes());
        for trial in &example.trials {
            put(trial.problem.0, trial.problem.1.clone());
            put(trial.plan.0, trial.plan.1.clone());
            put(trial.output, trial.printed());
        }
        for (file, names) in &example.names {
            put(file, names.file().into_bytes());
        }
        if let Some(merging) = &example.merging {
            put("table", merging.table.clone());
        }
    }
    files
}

const INDEX: &str = "\
# Examples

Problems and plans for the desk program, `./larkhammock PROBLEM PLAN`:

- [trial](trial/README.md): the smallest problem that needs two steps
- [store](store/README.md): carriages brought home after a stoppage
- [small-store](small-store/README.md): two of them, and a search for the plan
- [large-store](large-store/README.md): nineteen of them, with 57 facts: a problem
  of version 2
- [sorting](sorting/README.md): a sorting network of 8 channels
- [grid](grid/README.md): a robot that does not know where it is
- [two-halls](two-halls/README.md): two problems, and one for both

`problem`, `plan` and the like are blocks, and `names` and the like are what their
facts and actions are called. `output` and the like are what the
program prints, byte for byte. All of it, these pages included, is written by
`cargo run --release --bin make-examples` in the folder `rust`.
";

/// A print of more lines than this is shown by its first few.
const SHORT: usize = 12;
const FEW: usize = 6;
/// An explanation of more lines is shown by its first and its last few.
const LONG: usize = 20;

fn readme(example: &Example) -> String {
    let mut page = format!("{}\n## At the desk\n", example.about);
    for trial in &example.trials {
        let folder = format!("examples/{}", example.folder);
        let (problem, plan, output) = (trial.problem.0, trial.plan.0, trial.output);
        let text = String::from_utf8(trial.printed()).expect("the desk program prints ASCII");
        let lines: Vec<&str> = text.lines().collect();
        let shown = if lines.len() > SHORT {
            FEW
        } else {
            lines.len()
        };
        page += &format!("\n{}\n\n```\n", trial.story);
        page += &format!("$ ./larkhammock {folder}/{problem} {folder}/{plan}\n");
        page += &lines[..shown].join("\n");
        page += "\n```\n\n";
        page += &match lines.len() - shown {
            0 => format!("This is the file `{output}`.\n"),
            more => format!("and {more} lines more, all of them in the file `{output}`.\n"),
        };
        if text.starts_with("wrong") {
            page += &explained(example, trial);
        }
        if let Some(start) = &trial.start {
            let facts = listed(&trial.relevant_facts(start.state));
            page += &format!("\n{}\n", start.story.replace("FACTS", &facts));
        }
    }
    if let Some(search) = &example.search {
        page += &format!("\n## By search\n\n{}\n\n```\n$ cd rust\n", search.story);
        for longest in search.lengths {
            let problem = format!("../examples/{}/problem", example.folder);
            page += "$ cargo run --release --example search -- ";
            page += &format!("{problem} {longest}\n{}\n", search.printed(*longest));
        }
        page += "```\n";
    }
    if let Some(merging) = &example.merging {
        let folder = format!("../examples/{}", example.folder);
        page += &format!("\n## By merging\n\n{}\n\n```\n$ cd rust\n", merging.story);
        page += "$ cargo run --release --example merge -- ";
        page += &format!("{folder}/first {folder}/second /tmp/problem /tmp/table\n");
        page += &format!("{}\n```\n", merging.printed());
    }
    page
}

/// How the program of the commands explains a wrong plan, by names.
fn explained(example: &Example, trial: &Trial) -> String {
    let folder = format!("examples/{}", example.folder);
    let (problem, plan) = (trial.problem.0, trial.plan.0);
    let (file, names) = example.names_for(trial);
    let manner = Manner { names, json: false };
    let said = manner.explain(&trial.problem.1, &trial.plan.1, desk::GRANT);
    let mut lines: Vec<&str> = said.output.lines().collect();
    if lines.len() > LONG {
        lines.splice(1..lines.len() - FEW, [".."]);
    }
    format!(
        "\nStep by step, by the names in the file `{file}`:\n\n```\n\
         $ ./larkhammock explain {folder}/{problem} {folder}/{plan} --names {folder}/{file}\n\
         {}\n```\n",
        lines.join("\n")
    )
}

fn listed(facts: &Facts) -> String {
    let facts: Vec<String> = facts.iter().map(u8::to_string).collect();
    match &facts[..] {
        [] => "no fact".into(),
        [one] => format!("fact {one}"),
        [others @ .., last] => format!("facts {} and {last}", others.join(", ")),
    }
}
