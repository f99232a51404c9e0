//! Generated halls: the whole answer and both buffers beside the oracle's, and what the
//! merged problem's formulas say of pairs of states.

use conformance::gen::{every_state, sound_case, Rng};
use conformance::harness::Operation::Merge;
use conformance::harness::{check, observed, Case};
use conformance::model::{Formula, Problem};
use conformance::oracle::{holds, merge_blocks, read_problem};
use conformance::version::Version;
use larkhammock::{raw, Hall};

use super::{Merged, MERGED};
use crate::support::Library;

of_each_version! {
    start_states_are_pairs_of_start_states,
    both_buffers_are_those_of_the_oracle,
    the_safe_crate_tells_whose_a_step_and_a_fact_are,
}

/// Both halls of a case, and what the library makes of them.
struct Pair {
    halls: [Problem; 2],
    merged: Merged,
}

/// A generated case which is held to the oracle; what it gives, if it is not refused.
fn pair(rng: &mut Rng, version: &Version) -> (Case, Option<Pair>) {
    let case = sound_case(rng, version);
    let answer = check(&Library, Merge, &case).expect("as the oracle does");
    if answer[0] != MERGED {
        return (case, None);
    }
    let effect = observed(&Library, Merge, &case);
    let block = effect.arena.lent()[..answer[1] as usize].to_vec();
    let numbers = effect.table.lent()[..answer[2] as usize].to_vec();
    let hall = |block| read_problem(block).expect("a merged hall is sound");
    let halls = [hall(&case.problem), hall(&case.second)];
    let merged = Merged::read(block, numbers);
    (case, Some(Pair { halls, merged }))
}

impl Pair {
    /// The states of both halls beside each other.
    fn states(&self) -> impl Iterator<Item = [Vec<bool>; 2]> + '_ {
        let [first, second] = &self.halls;
        every_state(first.facts)
            .flat_map(|one| every_state(second.facts).map(move |other| [one.clone(), other]))
    }

    /// How many pairs make the merged formula true: those of which each makes its hall's
    /// true, and no other.
    #[track_caller]
    fn pairs_are_those_of(&self, merged: &Formula, of: fn(&Problem) -> &Formula) -> usize {
        let [first, second] = &self.halls;
        let is_true = |[one, other]: &[Vec<bool>; 2]| {
            let each = holds(of(first), one) && holds(of(second), other);
            assert_eq!(holds(merged, &[&one[..], other].concat()), each);
            each
        };
        self.states().filter(is_true).count()
    }
}

fn start_states_are_pairs_of_start_states(version: &Version) {
    let mut rng = Rng::new(0x2a12);
    let (mut none, mut some, mut all) = (0, 0, 0);
    for _ in 0..6_000 {
        let (_, Some(pair)) = pair(&mut rng, version) else {
            continue;
        };
        let [first, second] = &pair.halls;
        let problem = &pair.merged.problem;
        let counts = raw::read_problem(&pair.merged.block).word;
        let facts = u64::from(first.facts) + u64::from(second.facts);
        let actions = first.actions.len() + second.actions.len();
        assert_eq!(counts, [1, facts, actions as u64, 0, 0, 0, 0, 0]);
        if facts > 10 {
            continue;
        }
        pair.pairs_are_those_of(&problem.goal, |hall| &hall.goal);
        match pair.pairs_are_those_of(&problem.initial, |hall| &hall.initial) {
            0 => none += 1,
            n if n == 1 << facts => all += 1,
            _ => some += 1,
        }
    }
    assert!(none > 100 && some > 500 && all > 20, "{none} {some} {all}");
}

/// What the harness compares, once more byte by byte: with buffers of other bytes, and
/// the merge done by hand.
fn both_buffers_are_those_of_the_oracle(version: &Version) {
    let mut rng = Rng::new(0x2a13);
    let (mut merged, mut refused) = (0, 0);
    for _ in 0..4_000 {
        let case = sound_case(&mut rng, version);
        let fill = rng.byte();
        let (mut out, mut table) = (vec![fill; case.block_room], vec![fill; case.places]);
        let answer = raw::merge(&case.problem, &case.second, &mut out, &mut table).word;
        let blocks = [&case.problem[..], &case.second];
        let lent = [case.block_room, case.places];
        let (mut block, mut numbers) = (vec![fill; lent[0]], vec![fill; lent[1]]);
        match merge_blocks(blocks, lent) {
            Ok(told) => {
                block[..told.block.len()].copy_from_slice(&told.block);
                numbers[..told.numbers.len()].copy_from_slice(&told.numbers);
                let lengths = [told.block.len() as u64, told.numbers.len() as u64];
                assert_eq!(answer, [1, lengths[0], lengths[1], 0, 0, 0, 0, 0]);
                merged += 1;
            }
            Err(fault) => {
                assert_eq!(answer, [0, fault.number, fault.place, 0, 0, 0, 0, 0]);
                refused += 1;
            }
        }
        assert!(out == block && table == numbers);
    }
    assert!(merged > 500 && refused > 500, "{merged} {refused}");
}

fn the_safe_crate_tells_whose_a_step_and_a_fact_are(version: &Version) {
    let mut rng = Rng::new(0x2a14);
    let mut met = [0; 2];
    for _ in 0..1_000 {
        let (case, Some(pair)) = pair(&mut rng, version) else {
            continue;
        };
        let (mut out, mut table) = (vec![0; case.block_room], vec![0; case.places]);
        let merged = larkhammock::merge(&case.problem, &case.second, &mut out, &mut table)
            .expect("it was merged before");
        assert_eq!(merged.problem, pair.merged.block);
        assert_eq!(merged.numbers, pair.merged.numbers);
        let mut numbers = merged.numbers.iter();
        let mut fact = 0;
        for (at, hall) in [Hall::First, Hall::Second].into_iter().enumerate() {
            let count = pair.halls[at].actions.len() as u8;
            for action in 0..count {
                let step = *numbers.next().expect("each action has its number");
                assert_eq!(merged.step(hall, action), Some(step));
                assert_eq!(merged.action(step), Some((hall, action)));
                met[at] += 1;
            }
            assert_eq!(merged.step(hall, count), None);
            for own in 0..pair.halls[at].facts {
                assert_eq!(merged.fact(fact), (hall, u64::from(own)));
                fact += 1;
            }
        }
        assert_eq!(merged.action(merged.numbers.len() as u8), None);
    }
    assert!(met.iter().all(|count| *count > 500), "{met:?}");
}
