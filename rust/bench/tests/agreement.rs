//! What is measured beside the library says what the library says.

#[macro_use]
#[path = "../../conformance/tests/versions/mod.rs"]
mod versions;
mod merging;

use std::collections::{BTreeMap, BTreeSet};
use std::iter;

use bench::follow;
use bench::judges::library;
use bench::plain;
use bench::plain::search::{Plan, Search};
use bench::problems::{self, Measured};
use bench::sat::{self, Cnf, Lit};
use conformance::answer::{words, Answer};
use conformance::encode;
use conformance::families::idle;
use conformance::gen::{damaged_plan_case, even_cover, sound_plan_case, with_search, Rng};
use conformance::harness::Case;
use conformance::oracle;
use conformance::version::{Version, VERSIONS};
use larkhammock::{raw, write_list, Outcome, Part, State, LONGEST_LIST};

type Judge = fn(&[u8], &[u8], u64) -> plain::Verdict;

/// The judges in plain Rust.
const JUDGES: [(&str, Judge); 2] = [
    ("scalar", plain::scalar::judge),
    ("planes", plain::planes::judge),
];

/// Holds each judge in plain Rust to the library; the part that their verdict
/// names, where it tells of a block.
fn agree(problem: &[u8], plan: &[u8], grant: u64, what: &str) -> Option<plain::Part> {
    let verdict = library(problem, plan, grant);
    for (name, judge) in JUDGES {
        assert_eq!(judge(problem, plan, grant), verdict, "{name}, {what}");
    }
    match verdict {
        plain::Verdict::Wrong {
            outcome: plain::Outcome::Blocked { part, .. },
            ..
        } => Some(part),
        _ => None,
    }
}

of_each_version! {
    plain_judges_judge_and_refuse_alike,
    plain_reading_reads_and_refuses_alike,
    plain_relevant_facts_are_told_and_refused_alike,
    plain_searches_find_and_refuse_alike,
    satisfying_assignments_are_counterexamples,
    plain_followers_follow_and_refuse_alike,
    plain_followers_follow_long_lists_alike,
    plain_followers_follow_as_long_lists,
    plain_followers_tell_a_full_cover_from_none,
    plain_merging_merges_and_refuses_alike,
    plain_merging_keeps_to_the_limits_alike,
}

fn plain_judges_judge_and_refuse_alike(version: &Version) {
    let mut rng = Rng::new(0xbe7c);
    let mut parts = BTreeSet::new();
    for round in 0..20_000 {
        let case = match round % 2 {
            0 => sound_plan_case(&mut rng, version),
            _ => damaged_plan_case(&mut rng, version),
        };
        for grant in [case.grant.min(2_000), 2_000] {
            let what = format!("round {round}");
            parts.extend(agree(&case.problem, &case.plan, grant, &what));
        }
    }
    for measured in problems::for_solvers() {
        let measured = measured.in_version(version);
        agree(&measured.problem, &measured.plan, 1 << 16, &measured.name);
    }
    for number in 0..4 {
        for part in [plain::Part::Member(number), plain::Part::Fact(number)] {
            assert!(parts.contains(&part), "{part:?} in {parts:?}");
        }
    }
}

/// The reading in plain Rust reads and refuses what the library's does.
fn plain_reading_reads_and_refuses_alike(version: &Version) {
    let mut rng = Rng::new(0xbe81);
    let mut met = BTreeSet::new();
    for round in 0..20_000 {
        let problem = damaged_plan_case(&mut rng, version).problem;
        let told = raw::read_problem(&problem).word;
        let answer = match plain::read::read_problem(&problem) {
            Ok((facts, actions)) => words(&[1, facts.into(), actions.into()]),
            Err(refusal) => refused(refusal),
        };
        assert_eq!(answer, told, "round {round}");
        met.insert(refusal_number(&told));
    }
    for number in iter::once(0).chain(11..26) {
        assert!(met.contains(&number), "{number} in {met:?}");
    }
}

/// Three sound cases, and a damaged one.
fn mostly_sound_case(rng: &mut Rng, version: &Version, round: usize) -> Case {
    match round % 4 {
        0 => damaged_plan_case(rng, version),
        _ => sound_plan_case(rng, version),
    }
}

fn refused(refusal: plain::Refusal) -> Answer {
    words(&[0, refusal.number.into(), refusal.place as u64])
}

/// The number of a refusal, and 0 of any other answer.
fn refusal_number(answer: &Answer) -> u64 {
    match answer {
        [0, number, ..] => *number,
        _ => 0,
    }
}

/// The relevant facts in plain Rust are the library's, and so is the work area.
fn plain_relevant_facts_are_told_and_refused_alike(version: &Version) {
    let mut rng = Rng::new(0xbe7d);
    let mut met = BTreeMap::new();
    for round in 0..20_000 {
        let case = mostly_sound_case(&mut rng, version, round);
        let Case {
            problem,
            plan,
            state,
            ..
        } = &case;
        let before: Vec<u8> = (0..case.work).map(|_| rng.byte()).collect();
        let (mut ours, mut plain) = (before.clone(), before);
        let told = raw::relevant_facts(problem, plan, *state, &mut ours).word;
        let answer = match plain::relevance::relevant_facts(problem, plan, *state, &mut plain) {
            Ok(set) => words(&[1, set]),
            Err(refusal) => refused(refusal),
        };
        assert_eq!(answer, told, "round {round}");
        assert_eq!(plain, ours, "round {round}");
        *met.entry(refusal_number(&told)).or_insert(0) += 1;
    }
    // Told, and each refusal of its own.
    for number in [0, 40, 41, 42] {
        assert!(met[&number] > 1_000, "{met:?}");
    }
}

/// The search in plain Rust finds what the library's does.
fn plain_searches_find_and_refuse_alike(version: &Version) {
    let mut rng = Rng::new(0xbe7e);
    let mut met = BTreeMap::new();
    for round in 0..20_000 {
        let case = with_search(mostly_sound_case(&mut rng, version, round));
        let Case {
            problem, longest, ..
        } = &case;
        for grant in [case.shared_grant.min(20_000), 2_000] {
            let told = raw::search_plans(problem, *longest, grant).word;
            let plain = plain::search::search_plans(problem, *longest, grant);
            assert_eq!(searched(plain), told, "round {round}, grant {grant}");
            *met.entry((told[0], refusal_number(&told))).or_insert(0) += 1;
        }
    }
    for kind in [(1, 0), (2, 0), (3, 0), (0, 43)] {
        assert!(met[&kind] > 1_000, "{met:?}");
    }
    assert!(met[&(0, 44)] > 10, "{met:?}");
}

/// The words of a search in plain Rust.
fn searched(search: Result<Search, plain::Refusal>) -> Answer {
    let with_plan = |tag, visits, plan: Plan| {
        let steps = plan.steps.map(u64::from);
        words(&[&[tag, visits, plan.length as u64], &steps[..]].concat())
    };
    match search {
        Err(refusal) => refused(refusal),
        Ok(Search::Found { plan, visits }) => with_plan(1, visits, plan),
        Ok(Search::NoneRight { visits }) => words(&[2, visits]),
        Ok(Search::Undecided { plan, visits }) => with_plan(3, visits, plan),
    }
}

/// Whether the clauses hold once the start facts have these values: every other
/// variable follows by clauses of one open literal.
fn holds(cnf: &Cnf, start: &[Lit], facts: &[bool]) -> bool {
    let mut value = vec![None; cnf.variables as usize + 1];
    for (variable, fact) in start.iter().zip(facts) {
        value[*variable as usize] = Some(*fact);
    }
    let truth =
        |value: &[Option<bool>], l: Lit| value[l.unsigned_abs() as usize].map(|v| v == (l > 0));
    loop {
        let mut changed = false;
        for clause in &cnf.clauses {
            if clause.iter().any(|l| truth(&value, *l) == Some(true)) {
                continue;
            }
            let open: Vec<Lit> = clause
                .iter()
                .copied()
                .filter(|l| truth(&value, *l).is_none())
                .collect();
            match open[..] {
                [] => return false,
                [one] => {
                    value[one.unsigned_abs() as usize] = Some(one > 0);
                    changed = true;
                }
                _ => {}
            }
        }
        if !changed {
            assert!(value[1..].iter().all(Option::is_some));
            return true;
        }
    }
}

/// The satisfying assignments are the counterexamples, a conflict included.
fn satisfying_assignments_are_counterexamples(version: &Version) {
    let mut rng = Rng::new(0x5a7);
    let (mut some, mut none, mut conflicts) = (0, 0, 0);
    for _ in 0..300 {
        let case = sound_plan_case(&mut rng, version);
        let problem = oracle::read_problem(&case.problem).expect("the case is sound");
        let steps = &case.plan[5..];
        let named = larkhammock::Version::of_byte(version.byte).expect("it is known");
        let sat::Encoded { cnf, start } = sat::encode(&problem, steps);
        let unused = problem.version.width - u32::from(problem.facts);
        for state in (0..1u64 << problem.facts.min(6)).map(|n| n << unused) {
            let facts = problem.version.values(state, problem.facts);
            let from = State::of_values(named, &facts);
            let outcome = larkhammock::run(&case.problem, &case.plan, from);
            let fails = oracle::holds(&problem.initial, &facts) && outcome != Ok(Outcome::Reached);
            assert_eq!(holds(&cnf, &start, &facts), fails);
            let conflict = matches!(
                outcome,
                Ok(Outcome::Blocked {
                    part: Part::Fact(_),
                    ..
                })
            );
            some += u32::from(fails);
            none += u32::from(!fails);
            conflicts += u32::from(fails && conflict);
        }
    }
    let least = some.min(none).min(conflicts);
    assert!(least > 100, "{some} {none} {conflicts}");
}

type Follow = fn(&[u8], &[u8], &[u8]) -> Result<usize, plain::Refusal>;

/// The followers in plain Rust.
const FOLLOWERS: [(&str, Follow); 2] = [
    ("a look a line", plain::follow::follow_list),
    ("a look at 64 lines", plain::follow::follow_list_by_64),
];

/// Holds each follower in plain Rust to the library, and is the answer.
fn follow_alike(problem: &[u8], plan: &[u8], list: &[u8], what: &str) -> Answer {
    let told = raw::follow_list(problem, plan, list).word;
    for (name, follow) in FOLLOWERS {
        let answer = match follow(problem, plan, list) {
            Ok(lines) => words(&[1, lines as u64]),
            Err(refusal) => refused(refusal),
        };
        assert_eq!(answer, told, "{name}, {what}");
    }
    told
}

/// Sound lists, short ones, and lists of which some lines or bytes are others.
fn plain_followers_follow_and_refuse_alike(version: &Version) {
    let mut rng = Rng::new(0xbe7f);
    let mut met = BTreeMap::new();
    for round in 0..20_000 {
        let case = mostly_sound_case(&mut rng, version, round);
        let Case {
            problem,
            plan,
            list,
            ..
        } = &case;
        let what = format!("round {round}");
        let told = follow_alike(problem, plan, list, &what);
        *met.entry(refusal_number(&told)).or_insert(0) += 1;
    }
    for number in [0, 61, 62, 63, 64, 65, 66, 67, 68, 69, 70, 71] {
        assert!(met[&number] > 10, "{number} in {met:?}");
    }
}

/// Lists of several looks at 64 lines, each with one byte another, whose first fault
/// can be any that a line can have.
fn plain_followers_follow_long_lists_alike(version: &Version) {
    let mut rng = Rng::new(0xbe80);
    let mut met = BTreeSet::new();
    for measured in [problems::store(4, 3), problems::grid(8)] {
        let measured = measured.in_version(version);
        let Measured { problem, plan, .. } = &measured;
        let mut list = vec![0; LONGEST_LIST];
        let length = write_list(problem, plan, u64::MAX, &mut list).expect("the plan is right");
        list.truncate(length);
        assert!(length > 3 * 64 * 8, "{}: {length}", measured.name);
        for round in 0..4_000 {
            let mut other = list.clone();
            let at = rng.below(length);
            other[at] ^= 1 << rng.below(8);
            let what = format!("{}, round {round}", measured.name);
            let told = follow_alike(problem, plan, &other, &what);
            met.insert(refusal_number(&told));
        }
    }
    for number in 65..70 {
        assert!(met.contains(&number), "{number} in {met:?}");
    }
}

/// The longest list, and one byte more.
fn plain_followers_follow_as_long_lists(version: &Version) {
    let Measured { problem, plan, .. } = follow::empty_plan().in_version(version);
    let most = version.most_lines;
    for (lines, more, number) in [(most, 0, 0), (most - 1, 0, 70), (most, 1, 60)] {
        let mut list = follow::first(version, lines);
        list.resize(list.len() + more, 0);
        let what = format!("{lines} lines and {more} bytes");
        let told = follow_alike(&problem, &plan, &list, &what);
        assert_eq!(refusal_number(&told), number, "{what}");
    }
}

/// After a cover that is full, and where none has begun.
fn plain_followers_tell_a_full_cover_from_none(version: &Version) {
    let measured = Measured::new("idle", idle(*version, version.most_facts), Vec::new());
    let Measured { problem, plan, .. } = &measured;
    let whole = even_cover(version, 1);
    let halves = even_cover(version, 2);
    for (lines, number) in [
        (vec![], 70),
        (whole.clone(), 0),
        (halves.clone(), 0),
        ([&whole[..], &whole].concat(), 68),
        ([&halves[..], &whole].concat(), 68),
        ([&halves[..], &halves].concat(), 68),
    ] {
        let what = format!("{lines:?}");
        let told = follow_alike(problem, plan, &encode::list(version, &lines), &what);
        assert_eq!(refusal_number(&told), number, "{what}");
    }
}

/// Two halls of which each is sound, or mostly so, and buffers that are long enough, or
/// nearly.
fn plain_merging_merges_and_refuses_alike(version: &Version) {
    let mut rng = Rng::new(0xbe82);
    let mut met = BTreeMap::new();
    for round in 0..8_000 {
        let other = rng.pick(&VERSIONS);
        let first = mostly_sound_case(&mut rng, version, round).problem;
        let second = mostly_sound_case(&mut rng, &other, round / 4).problem;
        let rooms = merging::rooms(&mut rng, &first, &second);
        let number = merging::alike(&first, &second, rooms, &format!("round {round}"));
        *met.entry(number).or_insert(0) += 1;
    }
    for number in iter::once(0).chain(11..26).chain([84, 86]) {
        assert!(met.contains_key(&number), "{number} in {met:?}");
    }
    assert!(met[&0].min(met[&86]) > 1_000, "{met:?}");
}

/// Each two of a few halls, some of which go over a limit together.
fn plain_merging_keeps_to_the_limits_alike(version: &Version) {
    let halls = merging::halls(version);
    let mut met = BTreeMap::new();
    for first in &halls {
        for second in &halls {
            let what = format!("{} and {}", first.name, second.name);
            for rooms in merging::near(&first.problem, &second.problem) {
                let number = merging::alike(&first.problem, &second.problem, rooms, &what);
                *met.entry(number).or_insert(0) += 1;
            }
        }
    }
    for number in [0, 82, 83, 84, 85, 86] {
        assert!(met.get(&number) > Some(&4), "{number} in {met:?}");
    }
}
