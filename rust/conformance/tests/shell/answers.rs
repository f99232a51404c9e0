//! Each command on each example, in each version that has room for it: in numbers, in
//! names and as JSON.

use conformance::encode;
use conformance::examples;
use conformance::gen::{names, Rng};
use conformance::model::Problem;
use conformance::oracle::{self, read_problem, Task, Verdict};
use conformance::shell::{marks, Manner, Names, Said, GRANT};
use conformance::version::Version;

use super::desk::Desk;

/// More than the visits of the first few plans, and less than those of most searches.
const SEARCH_GRANT: u64 = 3_000;

of_each_version! {
    judge,
    write,
    follow,
    run,
    facts,
    search,
    explain,
    show,
}

/// A problem and a plan of the examples, in files.
struct Example {
    desk: Desk,
    problem: Vec<u8>,
    plan: Vec<u8>,
    task: Task,
    names: Names,
}

impl Example {
    /// Every example, its problem written in this version.
    fn all(test: &str, version: &Version) -> Vec<Example> {
        let rng = &mut Rng::new(0x5e11);
        let mut all = Vec::new();
        for example in examples::all() {
            for trial in &example.trials {
                let problem = read_problem(&trial.problem.1).expect("it is sound");
                if problem.facts > version.most_facts {
                    continue;
                }
                let problem = Problem {
                    version: *version,
                    ..problem
                };
                let test = format!(
                    "{test}-{}-{}-{}",
                    version.byte, example.folder, trial.output
                );
                all.push(Example::new(&test, problem, &trial.plan.1, rng));
            }
        }
        all
    }

    fn new(test: &str, problem: Problem, plan: &[u8], rng: &mut Rng) -> Example {
        let desk = Desk::new(test);
        let names = names(rng, &problem);
        let problem = encode::problem(&problem);
        desk.put("problem", &problem);
        desk.put("plan", plan);
        desk.put("names", names.file().as_bytes());
        Example {
            desk,
            task: Task::parse(&problem, plan).expect("both are sound"),
            problem,
            plan: plan.to_vec(),
            names,
        }
    }

    fn verdict(&self) -> Verdict {
        oracle::judge(&self.problem, &self.plan, GRANT).expect("both are sound")
    }

    fn visits(&self) -> u64 {
        match self.verdict() {
            Verdict::Right { visits, .. }
            | Verdict::Wrong { visits, .. }
            | Verdict::Undecided { visits } => visits,
        }
    }

    /// A state that the plan does not carry to the goal, where there is one; and those
    /// in which no fact is true, every fact, and every other.
    fn states(&self) -> Vec<u64> {
        let Problem { version, facts, .. } = self.task.problem;
        let state = |holds: fn(u8) -> bool| {
            let values: Vec<bool> = (0..facts).map(holds).collect();
            version.number(&values)
        };
        let mut states = vec![
            state(|_| false),
            state(|_| true),
            state(|fact| fact % 2 == 0),
        ];
        if let Verdict::Wrong { state, .. } = self.verdict() {
            states.push(state);
        }
        states
    }

    /// In numbers and in names, for a person and as JSON.
    #[track_caller]
    fn in_each_manner(&self, line: &str, expected: impl Fn(&Manner) -> Said) {
        for (names, option) in [(&Names::NUMBERS, ""), (&self.names, "--names names")] {
            for (json, switch) in [(false, ""), (true, "--json")] {
                let manner = Manner { names, json };
                let line = format!("{line} {option} {switch}");
                self.desk.expect(&line, &expected(&manner));
            }
        }
    }
}

fn judge(version: &Version) {
    for example in Example::all("judge", version) {
        let Example { problem, plan, .. } = &example;
        example.in_each_manner("judge problem plan", |manner| {
            manner.judge(problem, plan, GRANT)
        });
        let visits = example.visits();
        for grant in [0, 1, visits - 1, visits, u64::MAX] {
            let line = format!("judge problem plan --grant {grant}");
            example.in_each_manner(&line, |manner| manner.judge(problem, plan, grant));
        }
    }
}

fn write(version: &Version) {
    for example in Example::all("write", version) {
        let Example {
            problem,
            plan,
            desk,
            ..
        } = &example;
        example.in_each_manner("write problem plan -o list", |manner| {
            manner.write(problem, plan, GRANT)
        });
        let files = desk.files();
        match oracle::write_list(problem, plan, GRANT, usize::MAX) {
            Ok(list) => assert!(desk.get("list") == list, "{}", desk.folder.display()),
            Err(_) => assert!(!files.contains("list"), "{}", desk.folder.display()),
        }
        let grant = example.visits() - 1;
        let line = format!("write problem plan --output short --grant {grant}");
        example.in_each_manner(&line, |manner| manner.write(problem, plan, grant));
        assert_eq!(desk.files(), files, "{}", desk.folder.display());
    }
}

/// The list of a right plan; the same without its last line, with a claim that is not
/// so, and in the other version. A wrong plan has the lines of another, or none.
fn follow(version: &Version) {
    for example in Example::all("follow", version) {
        let Example {
            problem,
            plan,
            desk,
            task,
            ..
        } = &example;
        let lines = oracle::walk(task, GRANT).lines;
        let mut claiming = lines.clone();
        for line in &mut claiming {
            line.kind = 1 - line.kind;
        }
        let short = &lines[..lines.len().saturating_sub(1)];
        let lists = [
            encode::list(version, &lines),
            encode::list(version, short),
            encode::list(version, &claiming),
            encode::list(&version.other(), &[]),
            [encode::list(version, &lines), vec![0]].concat(),
        ];
        for list in lists {
            desk.put("list", &list);
            example.in_each_manner("follow problem plan list", |manner| {
                manner.follow(problem, plan, &list)
            });
        }
    }
}

fn run(version: &Version) {
    from_each_state("run", version, |manner, problem, plan, state| {
        manner.run(problem, plan, state)
    });
}

fn facts(version: &Version) {
    from_each_state("facts", version, |manner, problem, plan, state| {
        manner.facts(problem, plan, state)
    });
}

/// What a command answers from a state.
type FromState = fn(&Manner<'_>, &[u8], &[u8], u64) -> Said;

/// A command that takes a state, from several states of each example.
fn from_each_state(command: &str, version: &Version, answer: FromState) {
    for example in Example::all(command, version) {
        let Example {
            problem,
            plan,
            task,
            ..
        } = &example;
        for state in example.states() {
            let line = format!("{command} problem plan {}", marks(&task.problem, state));
            example.in_each_manner(&line, |manner| answer(manner, problem, plan, state));
        }
    }
}

/// Up to one step, and as far as the example's own search goes.
fn search(version: &Version) {
    for example in Example::all("search", version) {
        let Example { problem, desk, .. } = &example;
        for longest in [0, 1, 4, 5] {
            let grant = SEARCH_GRANT;
            let line = format!("search problem {longest} --grant {grant} -o found");
            example.in_each_manner(&line, |manner| manner.search(problem, longest, grant));
            let search = oracle::search_plans(problem, longest, grant);
            let Ok(oracle::Search::Found { plan, .. }) = search else {
                continue;
            };
            assert_eq!(desk.get("found"), encode::plan(&plan), "{line}");
        }
    }
}

fn explain(version: &Version) {
    for example in Example::all("explain", version) {
        let Example { problem, plan, .. } = &example;
        example.in_each_manner("explain problem plan", |manner| {
            manner.explain(problem, plan, GRANT)
        });
        let grant = example.visits() - 1;
        let line = format!("explain problem plan --grant {grant}");
        example.in_each_manner(&line, |manner| manner.explain(problem, plan, grant));
    }
}

fn show(version: &Version) {
    for example in Example::all("show", version) {
        let Example { problem, plan, .. } = &example;
        example.in_each_manner("show problem", |manner| manner.show(problem, None));
        example.in_each_manner("show problem plan", |manner| {
            manner.show(problem, Some(plan))
        });
    }
}
