//! Every short plan, in order.

use std::collections::BTreeSet;

use crate::cases::searched::{self, Searched};
use crate::support::Library;
use conformance::answer::{self, plan_words, words, Answer};
use conformance::encode;
use conformance::examples;
use conformance::gen::{ordered_problem, right_task, task, Rng};
use conformance::harness::Operation::SearchPlans;
use conformance::harness::{check, expect, Case};
use conformance::model::Problem;
use conformance::oracle::{plans, Search};
use conformance::version::Version;
use larkhammock::{raw, Verdict};

/// The answer with this grant, from the visits of each plan.
fn by_hand(row: &Searched, grant: u64) -> Vec<u64> {
    let mut used = 0;
    for (plan, visits) in row.walks {
        used += visits;
        if used > grant {
            return plan_words(3, grant, plan);
        }
    }
    match row.walks.last() {
        Some((plan, _)) if row.last_is_right => plan_words(1, used, plan),
        _ => vec![2, used],
    }
}

of_each_version! {
    worked_out_by_hand,
    the_library_searches_as_the_oracle_does,
    the_library_searches_as_it_judges,
    only_the_grant_leaves_it_undecided,
    a_longer_search_goes_on_where_a_shorter_ends,
}

fn worked_out_by_hand(version: &Version) {
    for row in searched::all(version) {
        // It is shown where the test fails.
        println!("{}", row.name);
        let visits: u64 = row.walks.iter().map(|(_, visits)| visits).sum();
        for grant in (0..visits + 2).chain([u64::MAX]) {
            let case = Case {
                problem: encode::problem(&row.problem),
                longest: row.longest,
                shared_grant: grant,
                ..Case::default()
            };
            expect(&Library, SearchPlans, &case, &by_hand(&row, grant));
        }
    }
}

/// Each plan once, in the order that is asked for: the same as all of them in any
/// order, sorted.
#[test]
fn the_oracle_tries_each_plan_once_and_in_order() {
    for actions in 0..=6 {
        for longest in 0..=4 {
            let mut every = BTreeSet::from([(0, Vec::new())]);
            for _ in 0..longest {
                let longer: Vec<_> = every
                    .iter()
                    .flat_map(|(length, plan): &(usize, Vec<u8>)| {
                        let step = move |step: u8| (length + 1, [&plan[..], &[step]].concat());
                        (0..actions).map(step)
                    })
                    .collect();
                every.extend(longer);
            }
            let sorted = every.into_iter().map(|(_, plan)| plan);
            assert!(plans(actions.into(), longest).eq(sorted));
        }
    }
}

/// A problem of few facts and actions: at most 781 plans of 511 visits.
fn small_problem(rng: &mut Rng, version: &Version, round: usize) -> Problem {
    loop {
        let problem = match round % 3 {
            0 => right_task(rng, version).problem,
            1 => task(rng, version).problem,
            _ => ordered_problem(rng, version),
        };
        if problem.facts <= 8 && problem.actions.len() <= 5 {
            return problem;
        }
    }
}

/// What was met, by the tag and the length of the plan.
type Met = BTreeSet<(u64, u64)>;

fn met(met: &mut Met, answer: &Answer) {
    met.insert((answer[0], answer[2]));
}

/// Found and undecided plans of every length, and none.
fn of_every_kind() -> Met {
    let lengths = (0..=4).flat_map(|length| [(1, length), (3, length)]);
    lengths.chain([(2, 0)]).collect()
}

/// The oracle's whole answer, for every length and for grants that end in every
/// part of the search.
fn the_library_searches_as_the_oracle_does(version: &Version) {
    const MOST: u64 = 2_000;
    let mut rng = Rng::new(0x5ea7);
    let mut kinds = Met::new();
    let mut searches = 0;
    for round in 0..400 {
        let problem = encode::problem(&small_problem(&mut rng, version, round));
        for longest in 0..=4 {
            let whole = raw::search_plans(&problem, longest, MOST).word[1];
            let mut grants = BTreeSet::from([0, 1, whole - 1, whole, whole + 1]);
            grants.extend((0..3).map(|_| rng.word() % (whole + 1)));
            if whole < MOST {
                grants.insert(u64::MAX);
            }
            for shared_grant in grants {
                let case = Case {
                    problem: problem.clone(),
                    longest,
                    shared_grant,
                    ..Case::default()
                };
                match check(&Library, SearchPlans, &case) {
                    Ok(answer) => met(&mut kinds, &answer),
                    Err(difference) => panic!("round {round}: {difference:?}"),
                }
                searches += 1;
            }
        }
    }
    assert_eq!(kinds, of_every_kind());
    assert!(searches > 10_000, "{searches} searches");
}

/// The plan after this one: the last step that can be raised is raised, and those
/// after it begin anew; where none can, it has a step more.
fn next(plan: &[u8], actions: usize) -> Vec<u8> {
    let mut plan = plan.to_vec();
    for step in plan.iter_mut().rev() {
        *step += 1;
        if usize::from(*step) < actions {
            return plan;
        }
        *step = 0;
    }
    plan.push(0);
    plan
}

/// A search of calls to the library's judge, each with the visits left.
fn by_judging(problem: &[u8], actions: usize, longest: usize, grant: u64) -> Answer {
    let mut used = 0;
    let mut plan = Vec::new();
    let search = loop {
        let verdict = larkhammock::judge(problem, &encode::plan(&plan), grant - used);
        match verdict.expect("both are sound") {
            Verdict::Right { visits, .. } => {
                let visits = used + visits;
                break Search::Found { plan, visits };
            }
            Verdict::Undecided { visits } => {
                let visits = used + visits;
                break Search::Undecided { plan, visits };
            }
            Verdict::Wrong { visits, .. } => used += visits,
            other => panic!("{other:?}"),
        }
        plan = next(&plan, actions);
        if plan.len() > longest || actions == 0 {
            break Search::NoneRight { visits: used };
        }
    };
    answer::search_plans(&Ok(search))
}

/// What the library says of all plans together is what it says of each alone.
fn the_library_searches_as_it_judges(version: &Version) {
    let mut rng = Rng::new(0x5ea8);
    let mut kinds = Met::new();
    for round in 0..600 {
        let tree = small_problem(&mut rng, version, round);
        let actions = tree.actions.len();
        let problem = encode::problem(&tree);
        for longest in 0..=4 {
            let search = |grant| raw::search_plans(&problem, longest, grant).word;
            let whole = search(u64::MAX)[1];
            let few = [whole, whole - 1, 0].into_iter();
            let any = (0..4).map(|_| rng.word() % whole);
            for grant in [u64::MAX].into_iter().chain(few).chain(any) {
                let answer = search(grant);
                let alone = by_judging(&problem, actions, longest as usize, grant);
                assert_eq!(answer, alone, "round {round}, up to {longest}, {grant}");
                met(&mut kinds, &answer);
            }
        }
    }
    assert_eq!(kinds, of_every_kind());
}

/// The order of plans, written down once more.
fn place(answer: &Answer) -> [u64; 5] {
    answer[2..7].try_into().expect("a length and four steps")
}

/// That of the last plan of all: the highest step throughout, or the empty plan.
fn last_place(actions: u64, longest: u64) -> [u64; 5] {
    let mut place = [0; 5];
    if actions > 0 {
        place[0] = longest;
        place[1..=longest as usize].fill(actions - 1);
    }
    place
}

/// An answer that is not undecided is the same with every larger grant. With a
/// smaller one it is undecided: a plan is named that comes no earlier where more is
/// granted, and none after the right one.
fn only_the_grant_leaves_it_undecided(version: &Version) {
    let mut rng = Rng::new(0x5ea9);
    let mut kinds = Met::new();
    for round in 0..600 {
        let tree = small_problem(&mut rng, version, round);
        let problem = encode::problem(&tree);
        let longest = rng.below(5) as u64;
        let search = |grant| raw::search_plans(&problem, longest, grant).word;
        let answer = search(u64::MAX);
        let whole = answer[1];
        assert!(answer[0] != 3 && whole > 0, "{answer:?}");
        met(&mut kinds, &answer);
        let larger = (0..8).map(|bits| whole + (rng.word() >> (8 * bits)) % (u64::MAX - whole));
        for grant in larger.chain([whole, whole + 1]) {
            assert_eq!(search(grant), answer, "{grant}");
        }
        let mut before = [0; 5];
        let stride = whole.div_ceil(200) as usize;
        for grant in (0..whole).step_by(stride).chain([whole - 1]) {
            let short = search(grant);
            assert_eq!(short[..2], [3, grant]);
            let named = place(&short);
            assert!(before <= named, "{before:?} {named:?}");
            assert!(answer[0] == 2 || named <= place(&answer));
            before = named;
            met(&mut kinds, &short);
        }
        // What is named last is the right plan, or the last of all.
        let last = match answer[0] {
            1 => place(&answer),
            _ => last_place(tree.actions.len() as u64, longest),
        };
        assert_eq!(before, last);
    }
    assert_eq!(kinds, of_every_kind());
}

/// A longer search begins as a shorter one: it finds what that finds, and goes on
/// where that found none.
fn a_longer_search_goes_on_where_a_shorter_ends(version: &Version) {
    let mut rng = Rng::new(0x5eaa);
    let (mut kept, mut later, mut never) = (0, 0, 0);
    for round in 0..600 {
        let tree = small_problem(&mut rng, version, round);
        let problem = encode::problem(&tree);
        let search = |longest| raw::search_plans(&problem, longest, u64::MAX).word;
        for longest in 0..4 {
            match (search(longest), search(longest + 1)) {
                (short @ [1, ..], long) => {
                    assert_eq!(long, short);
                    kept += 1;
                }
                ([_, visits, ..], [1, more, length, ..]) => {
                    assert!(more > visits && length == longest + 1);
                    later += 1;
                }
                ([_, visits, ..], long) => {
                    // Each plan more takes a visit at least.
                    let plans = (tree.actions.len() as u64).pow(longest as u32 + 1);
                    assert!(long[1] >= visits + plans);
                    assert_eq!(long, words(&[2, long[1]]));
                    never += 1;
                }
            }
        }
    }
    assert!(kept.min(later).min(never) > 50, "{kept} {later} {never}");
}

/// What the examples tell of their searches, the library does, and the plan that
/// is found last is theirs.
#[test]
fn the_library_says_the_same_as_the_examples() {
    let mut told = 0;
    for example in examples::all() {
        let Some(searching) = &example.search else {
            continue;
        };
        let problem = &searching.problem;
        let searches = searching.lengths.iter().map(|longest| {
            let search = larkhammock::search_plans(problem, *longest, searching.grant);
            let search = search.expect("it is not refused");
            assert_eq!(search.to_string(), searching.printed(*longest));
            told += 1;
            search
        });
        let Some(larkhammock::Search::Found { plan, .. }) = searches.last() else {
            panic!("a plan is found");
        };
        let mut plans = example.trials.iter().map(|trial| &trial.plan);
        assert!(plans.any(|(name, block)| *name == "plan" && *block == plan.block()));
        let verdict = larkhammock::judge(problem, &plan.block(), searching.grant);
        assert!(matches!(verdict, Ok(Verdict::Right { .. })));
    }
    assert_eq!(told, 2);
}
