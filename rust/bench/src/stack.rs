//! How much stack a call takes, on a problem that takes it as deep as any can.

use std::env;
use std::fs;
use std::path::{Path, PathBuf};
use std::process::{self, Command};
use std::sync::atomic::{AtomicUsize, Ordering};

use conformance::encode;
use conformance::model::{Action, Effect, Formula, Problem};
use conformance::version::{Version, VERSIONS};
use larkhammock::{raw, write_list, LONGEST_LIST};

use crate::judges::Judges;
use crate::page::{whole, Part, Table};

/// The functions of the C interface, without what their names have in common.
const OPERATIONS: [&str; 10] = [
    "read_problem",
    "read_plan",
    "run",
    "judge",
    "write_list",
    "follow_list",
    "relevant_facts",
    "relevant_facts_sparse",
    "search_plans",
    "merge",
];

/// The files of the blocks that the measure takes, in this order: the last two are
/// halls that are merged.
const FILES: [&str; 5] = ["problem", "plan", "list", "first", "second"];

/// As deep as groups may nest.
const DEEPEST: usize = 8;

/// Groups so deep, of which the outermost of an even number is an "all": true in
/// every state, but unknown as long as the fact is.
fn nested(depth: usize, fact: u8) -> Formula {
    (1..depth).fold(Formula::either(fact), |inside, level| {
        if level % 2 == 1 {
            Formula::all([inside])
        } else {
            Formula::any([inside])
        }
    })
}

/// In the one start state no fact is true, or the last alone: so the walk goes
/// down to the last fact and is short. The action counts to four with the facts
/// before it, so that no shorter plan is right.
fn deepest_problem(version: &Version, facts: u8) -> Problem {
    let last = facts - 1;
    let counter: Vec<u8> = (last - 4..last).collect();
    let mut effects = vec![Effect::sets(counter[0], Formula::always())];
    for pair in counter.windows(2) {
        effects.push(Effect::sets(pair[1], Formula::fact(pair[0])));
    }
    let unknown = || nested(DEEPEST - 1, last);
    let nothing_else = (0..last).map(Formula::not);
    Problem {
        version: *version,
        facts,
        initial: Formula::all([unknown()].into_iter().chain(nothing_else)),
        goal: Formula::all([unknown(), Formula::fact(counter[3])]),
        actions: vec![Action {
            precondition: nested(DEEPEST, last),
            effects,
        }],
    }
}

/// How many were made: two at once stand in folders of their own.
static MADE: AtomicUsize = AtomicUsize::new(0);

/// The program that measures a call, and the files of the blocks of a version that it
/// is called with.
struct Measure {
    folder: PathBuf,
}

impl Measure {
    fn new(version: &Version) -> Measure {
        let made = MADE.fetch_add(1, Ordering::Relaxed);
        let name = format!("larkhammock-stack-{}-{made}", process::id());
        let folder = env::temp_dir().join(name);
        fs::create_dir_all(&folder).expect("the temporary folder can be written");
        let measure = Measure { folder };
        measure.compile();
        measure.write_blocks(version);
        measure
    }

    fn compile(&self) {
        let here = Path::new(env!("CARGO_MANIFEST_DIR"));
        let compiled = Command::new("gcc")
            .args(["-std=c99", "-O2", "-Wall", "-Wextra", "-Werror", "-I"])
            .arg(here.join("../../include"))
            .arg("-o")
            .arg(self.folder.join("stack"))
            .arg(here.join("src/stack.c"))
            .arg(raw::ARCHIVE)
            .status()
            .expect("gcc can be started");
        assert!(compiled.success(), "gcc compiles the measure");
    }

    fn write_blocks(&self, version: &Version) {
        let of_facts = |facts| encode::problem(&deepest_problem(version, facts));
        let problem = of_facts(version.most_facts);
        // Two halls of a version have as many facts as one problem of it.
        let hall = of_facts(version.most_facts / 2);
        let plan = encode::plan(&[0; 4]);
        let mut list = vec![0; LONGEST_LIST];
        let length = write_list(&problem, &plan, u64::MAX, &mut list).expect("the plan is right");
        list.truncate(length);
        let blocks = [problem, plan, list, hall.clone(), hall];
        for (name, block) in FILES.iter().zip(blocks) {
            fs::write(self.folder.join(name), block).expect("the temporary folder can be written");
        }
    }

    /// The bytes of stack that the call of this operation takes.
    fn stack(&self, operation: &str) -> u64 {
        let output = Command::new(self.folder.join("stack"))
            .arg(operation)
            .args(FILES.map(|name| self.folder.join(name)))
            .output()
            .expect("the measure can be started");
        let said = String::from_utf8_lossy(&output.stdout);
        let bytes = said.trim().strip_prefix("1 ");
        let bytes = bytes.and_then(|bytes| bytes.parse().ok());
        bytes.unwrap_or_else(|| panic!("{operation} does not go all the way: {said}"))
    }
}

impl Drop for Measure {
    fn drop(&mut self) {
        // What is left in the temporary folder harms nobody.
        let _ = fs::remove_dir_all(&self.folder);
    }
}

/// Each operation with the bytes of stack that its call takes on a problem of this
/// version.
pub fn measured(version: &Version) -> Vec<(&'static str, u64)> {
    let measure = Measure::new(version);
    OPERATIONS.map(|name| (name, measure.stack(name))).to_vec()
}

pub fn section(_: &mut Judges) -> Part {
    let mut table = Table::new(&["call", "bytes of stack, version 1", "version 2"]);
    let [first, second] = VERSIONS.map(|version| measured(&version));
    for ((operation, in_first), (_, in_second)) in first.into_iter().zip(second) {
        table.row(&[operation.to_string(), whole(in_first), whole(in_second)]);
    }
    Part::text(format!("{HEAD}{}", table.finish()))
}

const HEAD: &str = "
## Stack

Of 48 facts, in version 2 of 64, and formulas that nest 8 deep: the walk goes down to the last fact, and a search to plans of four steps; of two halls that are
merged, each has half the facts. A call runs on a stack that was filled with one byte, and what it takes goes down to the last byte that is another.
`larkhammock.h` has the bound that a test holds it to.
";
