//! Certificates: what is written passes, what passes proves the plan right, and
//! nothing shorter passes.

use crate::support::Library;
use conformance::encode;
use conformance::gen::{altered, cover, every_cover, refined, right_task, task, Alteration, Rng};
use conformance::harness::{check, Case, Operation};
use conformance::model::Line;
use conformance::oracle::{lowest_failing, Task, ENUMERABLE};
use conformance::version::Version;

/// The blocks of a task, with all the grant there is.
fn case_of(task: &Task) -> Case {
    Case {
        problem: encode::problem(&task.problem),
        plan: encode::plan(&task.plan),
        grant: u64::MAX,
        ..Case::default()
    }
}

/// The list block of these lines.
fn block(task: &Task, lines: &[Line]) -> Vec<u8> {
    encode::list(&task.problem.version, lines)
}

/// Follows a list as the oracle does: its lines, if it passes.
#[track_caller]
fn follow(case: &Case, list: Vec<u8>) -> Option<u64> {
    let case = Case {
        list,
        ..case.clone()
    };
    match check(&Library, Operation::FollowList, &case) {
        Ok([0, ..]) => None,
        Ok(answer) => Some(answer[1]),
        Err(difference) => panic!("{difference:?}"),
    }
}

/// The list that the library writes, in a buffer that is longer by a few bytes.
/// Nothing where the plan is wrong.
fn written(version: &Version, case: &Case) -> Option<Vec<u8>> {
    let lines = match larkhammock::judge(&case.problem, &case.plan, case.grant) {
        Ok(larkhammock::Verdict::Right { lines, .. }) => lines as usize,
        Ok(larkhammock::Verdict::Wrong { .. }) => return None,
        other => panic!("{other:?}"),
    };
    let room = version.list_bytes(lines) + 3;
    let case = Case {
        room,
        ..case.clone()
    };
    if let Err(difference) = check(&Library, Operation::WriteList, &case) {
        panic!("{difference:?}");
    }
    let mut out = vec![0; room];
    let length = larkhammock::write_list(&case.problem, &case.plan, case.grant, &mut out)
        .expect("the plan is right and its list fits");
    out.truncate(length);
    Some(out)
}

/// A task whose states can be enumerated.
fn small_task(rng: &mut Rng, version: &Version, right: bool) -> Task {
    loop {
        let task = if right {
            right_task(rng, version)
        } else {
            task(rng, version)
        };
        if task.problem.facts <= ENUMERABLE && lowest_failing(&task).is_none() == right {
            return task;
        }
    }
}

of_each_version! {
    what_is_written_passes_and_nothing_shorter_does,
    no_list_passes_for_a_wrong_plan,
    every_cover_of_three_facts,
}

fn what_is_written_passes_and_nothing_shorter_does(version: &Version) {
    let mut rng = Rng::new(0x115ed);
    let mut passed = [0; Alteration::ALL.len()];
    let mut refused = [0; Alteration::ALL.len()];
    for _ in 0..3_000 {
        let task = small_task(&mut rng, version, true);
        let case = case_of(&task);
        let list = written(version, &case).expect("no state fails");
        let lines: Vec<Line> = cover(&task);
        assert_eq!(list, block(&task, &lines), "the walk's closed cases");
        assert_eq!(follow(&case, list), Some(lines.len() as u64));

        for (i, alteration) in Alteration::ALL.into_iter().enumerate() {
            let mut other = lines.clone();
            alteration.apply(&mut rng, &task, &mut other);
            match follow(&case, block(&task, &other)) {
                Some(count) => {
                    assert_eq!(count, other.len() as u64);
                    assert!(other.len() >= lines.len());
                    passed[i] += 1;
                }
                None => refused[i] += 1,
            }
        }

        // Many alterations of a list with more lines than it needs.
        let mut other = refined(&mut rng, &task, &lines);
        assert_eq!(
            follow(&case, block(&task, &other)),
            Some(other.len() as u64)
        );
        for _ in 0..4 {
            other = altered(&mut rng, &task, &other);
            if follow(&case, block(&task, &other)).is_some() {
                assert!(other.len() >= lines.len());
            }
        }
    }
    for (i, alteration) in Alteration::ALL.into_iter().enumerate() {
        use Alteration::{Doubled, Dropped, Split};
        // A split list still passes. A list with a line dropped does not cover
        // all, and a doubled line does not begin where it should.
        assert_eq!(refused[i] == 0, alteration == Split, "{alteration:?}");
        let never = [Dropped, Doubled].contains(&alteration);
        assert_eq!(passed[i] == 0, never, "{alteration:?}");
    }
}

fn no_list_passes_for_a_wrong_plan(version: &Version) {
    let mut rng = Rng::new(0x2bad);
    for _ in 0..3_000 {
        let task = small_task(&mut rng, version, false);
        let case = case_of(&task);
        assert_eq!(written(version, &case), None);
        // Every claim that can be so is so: only the failing states' are not.
        let mut lines = cover(&task);
        assert_eq!(follow(&case, block(&task, &lines)), None);
        let finer = refined(&mut rng, &task, &lines);
        assert_eq!(follow(&case, block(&task, &finer)), None);
        for _ in 0..6 {
            lines = altered(&mut rng, &task, &lines);
            assert_eq!(follow(&case, block(&task, &lines)), None);
        }
    }
}

/// For up to three facts, every list that could be a cover at all.
fn every_cover_of_three_facts(version: &Version) {
    let mut rng = Rng::new(0xc03e5);
    let covers: Vec<_> = (0..=3).map(|facts| every_cover(version, facts)).collect();
    assert_eq!(covers[3].len(), 1_446);
    let mut right = 0;
    for _ in 0..250 {
        let task = loop {
            let task = right_task(&mut rng, version);
            if task.problem.facts <= 3 {
                break task;
            }
        };
        let case = case_of(&task);
        let passing = covers[usize::from(task.problem.facts)]
            .iter()
            .map(|lines| block(&task, lines))
            .filter(|list| follow(&case, list.clone()).is_some());
        let shortest = passing.map(|list| list.len()).min();
        // The written list is among them, and is the shortest; without it none.
        assert_eq!(shortest, written(version, &case).map(|list| list.len()));
        assert_eq!(shortest.is_some(), lowest_failing(&task).is_none());
        right += u32::from(shortest.is_some());
    }
    assert!((50..250).contains(&right), "{right} right plans");
}
