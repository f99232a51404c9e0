//! A third hall beside two, in both ways of bracketing: it is the same problem, byte by byte.

use conformance::answer::Answer;
use conformance::encode;
use conformance::gen::{every_state, Rng};
use conformance::model::{Formula, Problem};
use conformance::oracle::{holds, Task};
use conformance::version::{Version, VERSIONS, VERSION_2};
use larkhammock::raw;

use super::formulas::counting;
use super::plans::small_task;
use super::Merged;

of_each_version! {
    both_ways_of_bracketing_say_the_same,
    three_halls_have_their_actions_in_one_order,
}

/// Three halls as one, and what each action's number is there: those of each hall in turn.
struct Three {
    problem: Problem,
    numbers: [Vec<u8>; 3],
}

/// So many numbers of the first hall's actions, and the others.
fn split(numbers: &[u8], first: usize) -> [Vec<u8>; 2] {
    let (first, second) = numbers.split_at(first);
    [first.to_vec(), second.to_vec()]
}

/// Where the numbers of a merge go that is merged again.
fn through(inner: Vec<u8>, outer: &[u8]) -> Vec<u8> {
    let number = |number: u8| outer[usize::from(number)];
    inner.into_iter().map(number).collect()
}

/// The first two, and then the third.
fn third_last([a, b, c]: [&Problem; 3]) -> Result<Three, Answer> {
    let inner = Merged::of(a, b)?;
    let outer = Merged::of(&inner.problem, c)?;
    let [ab, third] = split(&outer.numbers, inner.numbers.len());
    let [first, second] = split(&inner.numbers, a.actions.len()).map(|own| through(own, &ab));
    Ok(Three {
        problem: outer.problem,
        numbers: [first, second, third],
    })
}

/// The last two, and then the first before them.
fn first_last([a, b, c]: [&Problem; 3]) -> Result<Three, Answer> {
    let inner = Merged::of(b, c)?;
    let outer = Merged::of(a, &inner.problem)?;
    let [first, bc] = split(&outer.numbers, a.actions.len());
    let [second, third] = split(&inner.numbers, b.actions.len()).map(|own| through(own, &bc));
    Ok(Three {
        problem: outer.problem,
        numbers: [first, second, third],
    })
}

/// The steps of three plans by turns: of each its hall and the hall's action.
fn by_turns(rng: &mut Rng, halls: &[Task; 3]) -> Vec<(usize, u8)> {
    let mut left = halls.each_ref().map(|hall| hall.plan.iter().copied());
    let mut steps = Vec::new();
    while left.iter().any(|plan| plan.len() > 0) {
        let hall = rng.below(3);
        steps.extend(left[hall].next().map(|action| (hall, action)));
    }
    steps
}

impl Three {
    fn plan(&self, steps: &[(usize, u8)]) -> Vec<u8> {
        let number = |(hall, action): &(usize, u8)| self.numbers[*hall][usize::from(*action)];
        encode::plan(&steps.iter().map(number).collect::<Vec<u8>>())
    }
}

fn both_ways_of_bracketing_say_the_same(version: &Version) {
    let mut rng = Rng::new(0x2a18);
    let (mut merged, mut refused) = (0, 0);
    let mut ends = [0; 3];
    for _ in 0..600 {
        let versions = [*version, rng.pick(&VERSIONS), rng.pick(&VERSIONS)];
        let halls = versions.map(|version| small_task(&mut rng, &version, 3));
        let problems = halls.each_ref().map(|hall| &hall.problem);
        let (one, other) = match (third_last(problems), first_last(problems)) {
            (Ok(one), Ok(other)) => (one, other),
            (Err(one), Err(other)) => {
                assert_eq!(one, other);
                refused += 1;
                continue;
            }
            _ => panic!("one is refused, and the other is not: {halls:?}"),
        };
        merged += 1;
        let steps = by_turns(&mut rng, &halls);
        for state in every_state(one.problem.facts) {
            let says = |three: &Three| {
                let block = encode::problem(&three.problem);
                let run = raw::run(&block, &three.plan(&steps), VERSION_2.number(&state));
                let Problem { initial, goal, .. } = &three.problem;
                (holds(initial, &state), holds(goal, &state), run.word)
            };
            let said = says(&one);
            assert_eq!(said, says(&other));
            ends[said.2[0] as usize - 1] += 1;
        }
        alike(&one, &other, &steps);
    }
    assert!(merged > 300, "{merged}, and {refused} refused");
    assert!(ends.iter().all(|count| *count > 1_000), "{ends:?}");
}

/// They are one problem with the same numbers, and judged as one.
fn alike(one: &Three, other: &Three, steps: &[(usize, u8)]) {
    assert_eq!(one.problem, other.problem);
    assert_eq!(one.numbers, other.numbers);
    let judged = |three: &Three| {
        let block = encode::problem(&three.problem);
        raw::judge(&block, &three.plan(steps), u64::MAX).word
    };
    assert_eq!(judged(one), judged(other));
}

/// Three halls with actions that differ, so that no other order would be the same problem.
fn three_halls_have_their_actions_in_one_order(version: &Version) {
    for counts in [
        [1, 1, 1],
        [2, 1, 3],
        [0, 4, 0],
        [0, 0, 2],
        [16, 16, 32],
        [20, 24, 20],
    ] {
        let halls = counts.map(|count| counting(*version, count));
        let problems = halls.each_ref();
        let (Ok(one), Ok(other)) = (third_last(problems), first_last(problems)) else {
            panic!("they fit together: {counts:?}");
        };
        assert_eq!(
            encode::problem(&one.problem),
            encode::problem(&other.problem)
        );
        let facts = halls.each_ref().map(|hall| hall.facts);
        let begins = [0, facts[0], facts[0] + facts[1]];
        let asked = begins.iter().zip(counts);
        let asked: Vec<Formula> = asked
            .flat_map(|(begin, count)| (*begin..begin + count).map(Formula::fact))
            .collect();
        for three in [one, other] {
            let numbers = three.numbers.concat();
            assert!(numbers.iter().copied().eq(0..asked.len() as u8));
            let actions = three.problem.actions.into_iter();
            assert!(actions.map(|action| action.precondition).eq(asked.clone()));
        }
    }
}
