//! Each command on generated blocks, sound and damaged, beside the oracle.

use std::collections::BTreeSet;

use conformance::encode;
use conformance::gen::{case_of_round, damaged_case, names, right_task, task, Rng};
use conformance::harness::Case;
use conformance::oracle::{self, read_problem, Outcome, Part, Task, Verdict};
use conformance::shell::{marks, Manner, Names, Said, GRANT};
use conformance::version::Version;

use super::desk::{Desk, PLAINLY};

const ROUNDS: usize = 60;

of_each_version! {
    each_command,
    each_refusal_in_words,
    wrong_plans_are_explained,
}

fn each_command(version: &Version) {
    let rng = &mut Rng::new(0x5e12);
    let desk = Desk::new(&format!("generated-{}", version.byte));
    for round in 0..ROUNDS {
        let case = case_of_round(rng, version, round);
        let names = match read_problem(&case.problem) {
            Ok(problem) if rng.chance(1, 2) => names(rng, &problem),
            _ => Names::default(),
        };
        let manner = Manner {
            names: &names,
            json: rng.chance(1, 4),
        };
        put(&desk, &case, &names);
        for (line, said) in commands(&case, &manner) {
            let line = format!("{line} {}", options(&manner));
            desk.expect(&line, &said);
        }
    }
}

fn put(desk: &Desk, case: &Case, names: &Names) {
    desk.put("problem", &case.problem);
    desk.put("plan", &case.plan);
    desk.put("list", &case.list);
    desk.put("names", names.file().as_bytes());
}

fn options(manner: &Manner) -> String {
    let names = match manner.names.facts.is_empty() {
        true => "",
        false => "--names names",
    };
    let json = if manner.json { "--json" } else { "" };
    format!("{names} {json}")
}

/// Each command line, and what it says.
fn commands(case: &Case, manner: &Manner) -> Vec<(String, Said)> {
    let (problem, plan, list) = (&case.problem[..], &case.plan[..], &case.list[..]);
    let (grant, longest, shared) = (case.grant, case.longest, case.shared_grant);
    let (state, marks) = start(case);
    let task = |command: &str, rest: &str| format!("{command} problem plan {rest}");
    let granted = |command: &str, rest: &str| task(command, &format!("{rest} --grant {grant}"));
    let search = format!("search problem {longest} --grant {shared}");
    vec![
        (granted("judge", ""), manner.judge(problem, plan, grant)),
        (
            granted("write", "-o written"),
            manner.write(problem, plan, grant),
        ),
        (task("follow", "list"), manner.follow(problem, plan, list)),
        (task("run", &marks), manner.run(problem, plan, state)),
        (task("facts", &marks), manner.facts(problem, plan, state)),
        (search, manner.search(problem, longest, shared)),
        (granted("explain", ""), manner.explain(problem, plan, grant)),
        ("show problem".into(), manner.show(problem, None)),
        (task("show", ""), manner.show(problem, Some(plan))),
    ]
}

/// The case's state, with nothing past the facts, and its marks: marks can say no other.
fn start(case: &Case) -> (u64, String) {
    let Ok(problem) = read_problem(&case.problem) else {
        return (0, "0".into());
    };
    let values = problem.version.values(case.state, problem.facts);
    let state = problem.version.number(&values);
    (state, marks(&problem, state))
}

/// Every number that a command can be refused with but for 52, which takes a long list:
/// marks can say no other state than those of the facts, the room is always enough, and
/// nothing is merged.
fn each_refusal_in_words(version: &Version) {
    let rng = &mut Rng::new(0x5e14);
    let desk = Desk::new(&format!("refusals-{}", version.byte));
    let ranges = [10..=25, 30..=34, 41..=41, 43..=44, 50..=51, 60..=71];
    let mut awaited: BTreeSet<u64> = ranges.into_iter().flatten().collect();
    for _ in 0..200_000 {
        if awaited.is_empty() {
            return;
        }
        let case = damaged_case(rng, version);
        if !refusals(&case)
            .iter()
            .any(|number| awaited.contains(number))
        {
            continue;
        }
        put(&desk, &case, &Names::NUMBERS);
        for (line, said) in commands(&case, &PLAINLY) {
            let number = said.error.split(['(', ')']).nth(1);
            let number = number.and_then(|number| number.parse().ok());
            if number.is_some_and(|number| awaited.remove(&number)) {
                desk.expect(&line, &said);
                desk.expect(&format!("{line} --json"), &in_json(&case, &line));
            }
        }
    }
    panic!("no case is refused with {awaited:?}");
}

fn in_json(case: &Case, line: &str) -> Said {
    let manner = Manner {
        json: true,
        ..PLAINLY
    };
    let mut commands = commands(case, &manner).into_iter();
    let (_, said) = commands
        .find(|(other, _)| other == line)
        .expect("it is there");
    said
}

/// The numbers that commands on a case are refused with.
fn refusals(case: &Case) -> Vec<u64> {
    let Case {
        problem,
        plan,
        list,
        grant,
        ..
    } = case;
    let (state, _) = start(case);
    let refused = [
        oracle::write_list(problem, plan, *grant, usize::MAX).err(),
        oracle::follow_list(problem, plan, list).err(),
        oracle::relevant_facts(problem, plan, state, usize::MAX).err(),
        oracle::search_plans(problem, case.longest, case.shared_grant).err(),
    ];
    let refused = refused.into_iter().flatten();
    refused.map(|refusal| refusal.number).collect()
}

/// The explanation and the brute-force checker's outcome are of one run: it is told to
/// end where that ends.
fn wrong_plans_are_explained(version: &Version) {
    let rng = &mut Rng::new(0x5e13);
    let desk = Desk::new(&format!("explained-{}", version.byte));
    let mut ends = [0; 3];
    while ends.iter().any(|count| *count < 12) {
        let task = match rng.chance(1, 2) {
            true => right_task(rng, version),
            false => task(rng, version),
        };
        let (problem, plan) = (encode::problem(&task.problem), encode::plan(&task.plan));
        let Ok(Verdict::Wrong { state, outcome, .. }) = oracle::judge(&problem, &plan, GRANT)
        else {
            continue;
        };
        let kind = match outcome {
            Outcome::Blocked {
                part: Part::Member(_),
                ..
            } => 0,
            Outcome::Blocked {
                part: Part::Fact(_),
                ..
            } => 1,
            _ => 2,
        };
        ends[kind] += 1;
        if ends[kind] > 12 {
            continue;
        }
        let names = names(rng, &task.problem);
        let manner = Manner {
            names: &names,
            json: false,
        };
        let said = manner.explain(&problem, &plan, GRANT);
        ends_as_told(&task, state, outcome, &said.output);
        desk.put("problem", &problem);
        desk.put("plan", &plan);
        desk.put("names", names.file().as_bytes());
        desk.expect("explain problem plan --names names", &said);
    }
}

/// The oracle's explanation itself: it has a line a step that was taken, and names the
/// step that was blocked.
#[track_caller]
fn ends_as_told(task: &Task, state: u64, outcome: Outcome, told: &str) {
    let steps = told
        .lines()
        .filter(|line| line.starts_with("step "))
        .count() as u64;
    let (expected, end) = match outcome {
        Outcome::Blocked {
            step,
            part: Part::Member(_),
        } => (step + 1, "as this is false"),
        Outcome::Blocked {
            step,
            part: Part::Fact(_),
        } => (step + 1, "as it would set and clear"),
        _ => (task.plan.len() as u64, "end: the goal is missed"),
    };
    assert!(steps == expected && told.contains(end), "{state}: {told}");
}
