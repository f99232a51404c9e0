//! What an answer is worth when the question is put again: with a larger grant, or to
//! a problem with a narrower start.

use conformance::answer::Answer;
use conformance::encode;
use conformance::gen::{every_state, ordered_problem, right_task, task, Narrowing, Rng};
use conformance::model::Problem;
use conformance::oracle::{holds, plans, walk, Task};
use conformance::version::Version;
use larkhammock::raw;

of_each_version! {
    what_was_decided_stays_under_every_larger_grant,
    what_a_search_found_stays_under_every_larger_grant,
    a_right_plan_stays_right_for_a_narrower_start,
    a_search_finds_no_later_plan_for_a_narrower_start,
    what_fails_is_no_lower_for_a_narrower_start,
    a_list_for_a_wider_start_has_no_fault_but_its_claims,
    runs_and_what_they_rest_on_are_the_same_for_every_start,
}

/// The first words of answers: a verdict, and what a search found.
const REFUSED: u64 = 0;
const RIGHT: u64 = 1;
const WRONG: u64 = 2;
const UNDECIDED: u64 = 3;
const FOUND: u64 = 1;

/// No walk here looks at more cases than this.
const MOST_VISITS: u64 = 120;

/// More than the largest list of so many visits.
const ROOM: usize = 1_300;

/// The two blocks.
struct Blocks {
    problem: Vec<u8>,
    plan: Vec<u8>,
}

impl Blocks {
    fn of(problem: &Problem, plan: &[u8]) -> Blocks {
        Blocks {
            problem: encode::problem(problem),
            plan: encode::plan(plan),
        }
    }

    fn judge(&self, grant: u64) -> Answer {
        raw::judge(&self.problem, &self.plan, grant).word
    }

    /// The answer, and the buffer after the call.
    fn write(&self, grant: u64, room: usize) -> (Answer, Vec<u8>) {
        let mut out = vec![0xa5; room];
        let answer = raw::write_list(&self.problem, &self.plan, grant, &mut out).word;
        (answer, out)
    }

    fn follow(&self, list: &[u8]) -> Answer {
        raw::follow_list(&self.problem, &self.plan, list).word
    }
}

/// Every plan of up to two steps.
const LONGEST: u64 = 2;

fn search(problem: &Problem, grant: u64) -> Answer {
    raw::search_plans(&encode::problem(problem), LONGEST, grant).word
}

/// A task whose walk is short, and its visits.
fn short_task(
    rng: &mut Rng,
    make: fn(&mut Rng, &Version) -> Task,
    version: &Version,
) -> (Task, u64) {
    loop {
        let task = make(rng, version);
        if task.problem.facts > 8 {
            continue;
        }
        let visits = walk(&task, MOST_VISITS + 1).visits;
        if visits <= MOST_VISITS {
            return (task, visits);
        }
    }
}

/// Whether the task's plan is right, by the library, with the visits.
fn right_with(blocks: &Blocks) -> Option<u64> {
    match blocks.judge(u64::MAX) {
        [RIGHT, visits, ..] => Some(visits),
        _ => None,
    }
}

/// Grants around what is needed, and without end.
fn grants(needed: u64) -> impl Iterator<Item = u64> {
    (0..=needed + 2).chain([u64::MAX - 1, u64::MAX])
}

fn what_was_decided_stays_under_every_larger_grant(version: &Version) {
    let mut rng = Rng::new(0x6a1e);
    let (mut right, mut wrong) = (0, 0);
    for round in 0..600 {
        let make = if round % 2 == 0 { right_task } else { task };
        let (task, visits) = short_task(&mut rng, make, version);
        let blocks = Blocks::of(&task.problem, &task.plan);
        let room = rng.below(ROOM);
        let (mut verdict, mut list) = (None, None);
        for grant in grants(visits) {
            let answer = blocks.judge(grant);
            assert_eq!(answer[0] == UNDECIDED, grant < visits);
            if answer[0] != UNDECIDED {
                assert_eq!(*verdict.get_or_insert(answer), answer, "grant {grant}");
            }
            let written = blocks.write(grant, room);
            if written.0[..2] != [REFUSED, 50] {
                assert_eq!(
                    list.get_or_insert(written.clone()),
                    &written,
                    "grant {grant}"
                );
            }
        }
        match verdict.expect("there is a grant that suffices")[0] {
            RIGHT => right += 1,
            _ => wrong += 1,
        }
    }
    assert!(right > 100 && wrong > 100, "{right} {wrong}");
}

/// A problem with few plans, whose walks are short.
fn searched_problem(rng: &mut Rng, version: &Version) -> (Problem, u64) {
    loop {
        let problem = match rng.below(3) {
            0 => right_task(rng, version).problem,
            1 => task(rng, version).problem,
            _ => ordered_problem(rng, version),
        };
        if problem.facts > 4 || problem.actions.len() > 3 {
            continue;
        }
        let visits = search(&problem, u64::MAX)[1];
        if visits <= MOST_VISITS {
            return (problem, visits);
        }
    }
}

fn what_a_search_found_stays_under_every_larger_grant(version: &Version) {
    let mut rng = Rng::new(0x6a1f);
    let (mut found, mut none) = (0, 0);
    for _ in 0..400 {
        let (problem, visits) = searched_problem(&mut rng, version);
        let mut settled = None;
        for grant in grants(visits) {
            let answer = search(&problem, grant);
            assert_eq!(answer[0] == UNDECIDED, grant < visits);
            if answer[0] != UNDECIDED {
                assert_eq!(*settled.get_or_insert(answer), answer, "grant {grant}");
            }
        }
        match settled.expect("there is a grant that suffices")[0] {
            FOUND => found += 1,
            _ => none += 1,
        }
    }
    assert!(found > 50 && none > 50, "{found} {none}");
}

/// A narrower problem, which is as it should be: it differs in the initial formula
/// alone, and each of its start states is one of the other's.
fn narrowed(rng: &mut Rng, narrowing: Narrowing, problem: &Problem) -> Option<Problem> {
    let narrower = narrowing.apply(rng, problem)?;
    let initial = problem.initial.clone();
    let restored = Problem {
        initial,
        ..narrower.clone()
    };
    assert_eq!(&restored, problem);
    assert!(every_state(problem.facts)
        .filter(|state| holds(&narrower.initial, state))
        .all(|state| holds(&problem.initial, &state)));
    Some(narrower)
}

/// A task whose plan is right, with its visits, and a narrower problem.
fn right_pair(rng: &mut Rng, narrowing: Narrowing, version: &Version) -> (Task, u64, Problem) {
    loop {
        let (task, visits) = short_task(rng, right_task, version);
        if right_with(&Blocks::of(&task.problem, &task.plan)).is_none() {
            continue;
        }
        if let Some(narrower) = narrowed(rng, narrowing, &task.problem) {
            return (task, visits, narrower);
        }
    }
}

/// Under every grant the narrower problem's plan is right or undecided, and its list is
/// written or refused for another reason than that the plan is wrong.
fn a_right_plan_stays_right_for_a_narrower_start(version: &Version) {
    for narrowing in Narrowing::ALL {
        let mut rng = Rng::new(0x6a20 + narrowing as u64);
        let (mut fewer, mut more) = (0, 0);
        for _ in 0..200 {
            let (task, visits, narrower) = right_pair(&mut rng, narrowing, version);
            let blocks = Blocks::of(&narrower, &task.plan);
            let needed = right_with(&blocks).expect("the plan stays right");
            for grant in grants(needed) {
                let tag = blocks.judge(grant)[0];
                assert_eq!(tag, if grant < needed { UNDECIDED } else { RIGHT });
                let (answer, _) = blocks.write(grant, rng.below(ROOM));
                assert_ne!(answer[..2], [REFUSED, 51]);
            }
            fewer += u32::from(needed < visits);
            more += u32::from(needed > visits);
        }
        // What reads no where the first did is decided under the same grant; other
        // words can take more visits.
        match narrowing {
            Narrowing::Added => assert!(fewer > 10 && more == 0, "{fewer} {more}"),
            Narrowing::Told => assert!(fewer > 10, "{fewer} {more}"),
            Narrowing::Reworded => assert!(fewer == 0 && more > 10, "{fewer} {more}"),
        }
    }
}

/// The plan that a search finds.
fn found(problem: &Problem, grant: u64) -> Option<Vec<u8>> {
    match search(problem, grant) {
        [FOUND, _, length, steps @ ..] => {
            let steps = &steps[..length as usize];
            Some(steps.iter().map(|step| *step as u8).collect())
        }
        _ => None,
    }
}

fn a_search_finds_no_later_plan_for_a_narrower_start(version: &Version) {
    let mut rng = Rng::new(0x6a23);
    let (mut same, mut earlier) = (0, 0);
    for round in 0..600 {
        let (problem, _) = searched_problem(&mut rng, version);
        let narrowing = Narrowing::ALL[round % 3];
        let Some(narrower) = narrowed(&mut rng, narrowing, &problem) else {
            continue;
        };
        let Some(first) = found(&problem, u64::MAX) else {
            continue;
        };
        let second = found(&narrower, u64::MAX).expect("a right plan stays right");
        let at = |plan: &[u8]| {
            plans(problem.actions.len(), LONGEST)
                .position(|p| p == plan)
                .expect("it is one of them")
        };
        let (at_first, at_second) = (at(&first), at(&second));
        assert!(at_second <= at_first);
        same += u32::from(at_second == at_first);
        earlier += u32::from(at_second < at_first);
        let needed = search(&narrower, u64::MAX)[1];
        for grant in grants(needed) {
            let wanted = (grant >= needed).then(|| second.clone());
            assert_eq!(found(&narrower, grant), wanted, "grant {grant}");
        }
    }
    assert!(same > 20 && earlier > 20, "{same} {earlier}");
}

fn what_fails_is_no_lower_for_a_narrower_start(version: &Version) {
    let mut rng = Rng::new(0x6a26);
    let (mut same, mut higher, mut none) = (0, 0, 0);
    for round in 0..900 {
        let (task, _) = short_task(&mut rng, task, version);
        let [WRONG, _, state, ..] = Blocks::of(&task.problem, &task.plan).judge(u64::MAX) else {
            continue;
        };
        let narrowing = Narrowing::ALL[round % 3];
        let Some(narrower) = narrowed(&mut rng, narrowing, &task.problem) else {
            continue;
        };
        match Blocks::of(&narrower, &task.plan).judge(u64::MAX) {
            [WRONG, _, other, ..] => {
                assert!(other >= state, "{other:x} {state:x}");
                same += u32::from(other == state);
                higher += u32::from(other > state);
            }
            [RIGHT, ..] => none += 1,
            other => panic!("{other:?}"),
        }
    }
    let met = [same, higher, none];
    assert!(met.iter().all(|count| *count > 20), "{met:?}");
}

fn a_list_for_a_wider_start_has_no_fault_but_its_claims(version: &Version) {
    let mut rng = Rng::new(0x6a24);
    let mut passed = [0; 3];
    let mut refused = [[0; 2]; 3];
    for round in 0..1_500 {
        let which = round % 3;
        let (task, _, narrower) = right_pair(&mut rng, Narrowing::ALL[which], version);
        let wider = Blocks::of(&task.problem, &task.plan);
        let (answer, list) = wider.write(u64::MAX, ROOM);
        let list = &list[..answer[1] as usize];
        let lines = wider.follow(list)[1];
        let blocks = Blocks::of(&narrower, &task.plan);
        match blocks.follow(list) {
            [RIGHT, count, ..] => {
                assert_eq!(count, lines);
                passed[which] += 1;
            }
            [REFUSED, 69, line, ..] => {
                assert!(line < lines);
                let kind = list[version.list_bytes(line as usize)];
                refused[which][usize::from(kind)] += 1;
            }
            other => panic!("{other:?}"),
        }
    }
    // A case that is empty now, and claims to carry; and one that was empty, which the
    // other words do not tell.
    let [added, told, reworded] = refused;
    assert!(added[0] == 0 && added[1] > 10, "{added:?}");
    assert!(told[0] == 0 && told[1] > 10, "{told:?}");
    assert!(reworded[0] > 10 && reworded[1] == 0, "{reworded:?}");
    assert!(passed.iter().all(|count| *count > 10), "{passed:?}");
}

fn runs_and_what_they_rest_on_are_the_same_for_every_start(version: &Version) {
    type Call = fn(&[u8], &[u8], u64, &mut [u8]) -> Answer;
    let calls: [Call; 3] = [
        |problem, plan, state, _| raw::run(problem, plan, state).word,
        |problem, plan, state, work| raw::relevant_facts(problem, plan, state, work).word,
        |problem, plan, state, work| raw::relevant_facts_sparse(problem, plan, state, work).word,
    ];
    let mut rng = Rng::new(0x6a25);
    let mut answered = [0; 3];
    for round in 0..900 {
        let (task, _) = short_task(&mut rng, task, version);
        let Some(narrower) = narrowed(&mut rng, Narrowing::ALL[round % 3], &task.problem) else {
            continue;
        };
        let wider = Blocks::of(&task.problem, &task.plan);
        let blocks = Blocks::of(&narrower, &task.plan);
        let room = rng.below(2 * task.sparse_work_bytes());
        for values in every_state(task.problem.facts) {
            let state = version.number(&values);
            for (call, answered) in calls.iter().zip(&mut answered) {
                let ask = |blocks: &Blocks| {
                    let mut work = vec![0xa5; room];
                    let answer = call(&blocks.problem, &blocks.plan, state, &mut work);
                    (answer, work)
                };
                let first = ask(&wider);
                assert_eq!(ask(&blocks), first);
                *answered += u32::from(first.0[0] != REFUSED);
            }
        }
    }
    assert!(answered.iter().all(|count| *count > 100), "{answered:?}");
}
